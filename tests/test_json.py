"""bootmem-json: checks every report of every machine against the schema, and rare lines against objects written by hand."""

import json
import unittest

from schema import SCHEMA, fits
from support import Case, example, has_file, machines, program, tool, words_of, write

RARE = """== options
add 12 0x0000000020000000..0x0000000023ffffff
remove 1 0x0000000030000000..0xfffffffffffffffe
remove-all 0x0000000000000000..0x0000000000000fff
change 1 4026531839 0x0000000000001000..0x0000000000001fff
clear
crash range 0x0000000000000000 0x0000000020000000 0x0000000002000000 base 0x0000000000000000
crash range 0x0000000020000000 - 0x0000000004000000 base 0x0000000010000000
crash high 0x0000000020000000
crash low 0x0000000004000000
numa off
efi add
== nodes
numa not covered 256
uncovered 0
== crash
crash low failed
== journal
1: trim
2: limit 0x0000000000100000
3: grown memory 0x000000000009a000 room 256
4: claim table-memory 0x000000000009a000..0x000000000009cfff
5: claim script 7 0x0000000000100000..0x0000000000100fff
6: upward on
7: mirror 0x0000000000100000..0x0000000000100fff
== script
3: no gap
4: no gap for table memory room 128
5: bytes 00ff
== pages
1: at 0x0000000000100000
2: no block
== pagesinfo
Node 0, zone      DMA      1      0      0      0      0      0      0      0      1      1      3 
== zonelists
slit not valid 0 1
Node 0: 0/DMA32 0/DMA 1/Normal
"""

A_MIB, A_TABLE = "0x0000000000100000", "0x000000000009a000"

RARE_OBJECT = {
    "options": {"edits": [
        {"edit": "add", "type": 12, "first": "0x0000000020000000", "last": "0x0000000023ffffff"},
        {"edit": "remove", "type": 1, "first": "0x0000000030000000", "last": "0xfffffffffffffffe"},
        {"edit": "remove-all", "first": "0x0000000000000000", "last": "0x0000000000000fff"},
        {"edit": "change", "from": 1, "to": 4026531839, "first": "0x0000000000001000", "last": "0x0000000000001fff"},
        {"edit": "clear"}], "crash": {"ranges": [
            {"start": "0x0000000000000000", "end": "0x0000000020000000", "size": "0x0000000002000000", "base": "0x0000000000000000"},
            {"start": "0x0000000020000000", "end": None, "size": "0x0000000004000000", "base": "0x0000000010000000"}],
            "high": "0x0000000020000000", "low": "0x0000000004000000"}, "numa_off": True, "add_efi": True},
    "nodes": {"numa": "not covered", "frames": 256, "domains": [], "uncovered": 0, "ranges": []},
    "crash": {"outcome": "low failed", "low": None},
    "journal": [{"item": 1, "deed": "trim"}, {"item": 2, "deed": "limit", "limit": A_MIB},
                {"item": 3, "deed": "grown", "table": "memory", "place": A_TABLE, "room": 256},
                {"item": 4, "deed": "claim", "owner": "table-memory", "first": A_TABLE, "last": "0x000000000009cfff"},
                {"item": 5, "deed": "claim", "owner": "script", "number": 7, "first": A_MIB, "last": "0x0000000000100fff"},
                {"item": 6, "deed": "upward", "on": True}, {"item": 7, "deed": "mirror", "first": A_MIB, "last": "0x0000000000100fff"}],
    "script": [{"line": 3, "outcome": "no gap"}, {"line": 4, "outcome": "no gap for table", "table": "memory", "room": 128},
               {"line": 5, "outcome": "bytes", "bytes": "00ff"}],
    "pages": [{"line": 1, "outcome": "at", "place": A_MIB}, {"line": 2, "outcome": "no block"}],
    "pagesinfo": [{"node": 0, "zone": "DMA", "blocks": [1, 0, 0, 0, 0, 0, 0, 0, 1, 1, 3]}],
    "zonelists": {"slit": "not valid", "row": 0, "column": 1, "lists": [
        {"node": 0, "zones": [{"node": 0, "zone": "DMA32"}, {"node": 0, "zone": "DMA"}, {"node": 1, "zone": "Normal"}]}]},
}


def count_lines(found):
    """The number of report lines in an object, without the reports that always have the same number of lines."""
    lists = [name for name in ("map", "memory", "reserved", "owners", "journal", "zones", "script", "buddyinfo", "blocks") if name in found]
    return sum(len(found[name]) for name in lists)


class Json(Case):
    """Reports as JSON."""

    def test_json(self):
        """Every report of every machine fits the schema, and so do the objects for rare lines."""
        names = ["map", "memory", "reserved", "owners", "journal", "zones", "script", "buddyinfo", "blocks"]
        more = ["options", "nodes", "crash", "sections", "tables", "summary"]
        for name in machines():
            words = words_of(name) if has_file(name, "words") else ["zp.bin"]
            script = ["--script", "replay/script"] if has_file(name, "replay/script") else []
            text = program(example(name), "--report", ",".join(names + more), *script, *words)
            status, out, err = tool("bootmem-json", "--compact", "-", given=text)
            self.check(f"json {name}", (status, err, out.count("\n")), (0, "", 1))
            found = json.loads(out)
            self.check(f"json {name}: its form", fits(found, SCHEMA), None)
            self.check(f"json {name}: its reports", list(found), names + more)
            self.check(f"json {name}: its lines", count_lines(found),
                       len(text.split("== options\n")[0].splitlines()) - len(names))
        write(self.path("rare"), RARE.encode())
        found = json.loads(tool("bootmem-json", self.path("rare"))[1])
        self.check("json: rare lines", (fits(found, SCHEMA), found), (None, RARE_OBJECT))
        folder = example("q35-8g-crashhighlow")
        status, out, err = tool("bootmem-json", "--report", "crash,summary", "--", *words_of("q35-8g-crashhighlow"), folder=folder)
        self.check("json: a run", (status, err, json.loads(out)["crash"]), (0, "", {
            "outcome": "at", "first": "0x000000025f000000", "last": "0x000000027effffff",
            "low": {"first": "0x000000007b000000", "last": "0x000000007effffff"}}))
        # a report without its heading is recognised by its first line, or named on the command line
        for name in more + names:
            alone = program(folder, "--report", name, "--script", "replay/script", *words_of("q35-8g-crashhighlow"))
            self.check(f"json: {name} alone", list(json.loads(tool("bootmem-json", given=alone)[1])), [name if name != "reserved" else "memory"])
            self.check(f"json: {name} by its name", list(json.loads(tool("bootmem-json", "--report", name, given=alone)[1])), [name])
        self.check("json: no line at all", tool("bootmem-json", "--compact", "--report", "options")[1],
                   '{"options":{"edits":[],"crash":{"ranges":[],"high":null,"low":null},"numa_off":false,"add_efi":false}}\n')
        for what, text in (("nothing", ""), ("another text", "hello\n"), ("a broken line", "== map\n0x1..0x2\n"), ("another report", "== maps\n")):
            status, out, err = tool("bootmem-json", given=text)
            self.check(f"json, {what}", (status, out, err.count("\n")), (1, "", 1))
        empty = (1, "", "bootmem-json: the reports: the map is empty: no boot has such a map, so it wasn't written whole\n")
        self.check("json, an empty map", tool("bootmem-json", given="== map\n== owners\n"), empty)
        self.check("json, an empty map by its name", tool("bootmem-json", "--report", "map", "/dev/null"), empty)
        self.check("json, no report's name", tool("bootmem-json", "--report", "maps", given="")[:2], (2, ""))
        self.check("json, a name and heads", tool("bootmem-json", "--report", "map", given="== map\n")[:2], (2, ""))
        self.check("json, a refused run", tool("bootmem-json", "--", "cmdline", folder=folder)[:2], (1, ""))


if __name__ == "__main__":
    unittest.main()
