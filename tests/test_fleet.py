"""bootmem-fleet: lines and objects of machines, folders with faults, changed lines, a thousand folders."""

import gzip
import json
import os
import resource
import shutil
import unittest

from schema import SCHEMA, fits
from support import EXAMPLES, GIB, MIB, PROGRAM61, Case, bytes_of, example, tool, write, zero_page
from bootmem_tools import inputs

# There are fewer free frames than with --raw, by claims that the kernels' logs have: 1,152 frames of the log buffer and what goes with it,
# 17 frames of brk, and page tables.
FLEET = """q35-1g\t0\t-\t10\t262013\t242977\tnone\t-\tabsent\t1
q35-8g-crashhighlow\t0\t-\t11\t2097021\t1901855\t0x000000025f000000..0x000000027effffff\t0x000000007b000000..0x000000007effffff\tabsent\t1
srat-overlap\t0\t-\t6\t1048222\t1016895\tnone\t-\toverlap 0 1\t1
"""
RAW = """q35-1g\t0\t-\t10\t262013\t244146\tnone\t-\tabsent\t1
q35-8g-crashhighlow\t0\t-\t11\t2097021\t1903026\t0x000000025f000000..0x000000027effffff\t0x000000007b000000..0x000000007effffff\tabsent\t1
srat-overlap\t0\t-\t6\t1048222\t1018067\tnone\t-\toverlap 0 1\t1
"""

FOLDERS = 1000


class Fleet(Case):
    """Many machines."""

    def test_fleet(self):
        """Lines and objects of machines, faulty folders, changed lines, and the time for a thousand folders."""
        names = [line.split("\t")[0] for line in FLEET.splitlines()]
        self.check("fleet", tool("bootmem-fleet", *names, folder=EXAMPLES), (0, FLEET, ""))
        self.check("fleet --raw", tool("bootmem-fleet", "--raw", *names, folder=EXAMPLES), (0, RAW, ""))
        header = "folder\tstatus\tline\truns\tusable\tfree\tcrash\tlow\tnuma\tnodes"
        self.check("fleet --columns", tool("bootmem-fleet", "--columns", *names, folder=EXAMPLES), (0, f"{header}\n{FLEET}", ""))
        status, out, _ = tool("bootmem-fleet", "--columns", "--greatest", names[0], folder=EXAMPLES)
        self.check("fleet --columns --greatest", (status, out.splitlines()[0], out.splitlines()[1].count("\t")), (0, f"{header}\tplain\thigh", 11))
        self.check("fleet --columns --json", tool("bootmem-fleet", "--columns", "--json", names[0], folder=EXAMPLES)[:2], (2, ""))
        status, out, err = tool("bootmem-fleet", "examples", folder=os.path.dirname(EXAMPLES))
        self.check("fleet: a folder of folders", (status, out.split("\t")[1:3], err.splitlines()[0]),
                   (1, ["3", "bootmem61: cannot read zp.bin"],
                    "bootmem-fleet: examples: it has no zp.bin, but its folders have: name these, as by examples/*/"))
        status, out, err = tool("bootmem-fleet", "--json", "--jobs", "2", *sorted(os.listdir(EXAMPLES)), folder=EXAMPLES)
        rows = [json.loads(line) for line in out.splitlines()]
        self.check("fleet --json", (status, [fits(row, SCHEMA["$defs"]["machine"]) for row in rows]), (1, [None] * len(rows)))
        self.check("fleet --json: a file is no folder", [row["line"] for row in rows if row["status"]], ["no folder"])
        self.check("fleet: no place of an image", (err.count("\n"), "of 1 of" in err), (1, True))
        os.makedirs(self.path("empty"))
        shutil.copytree(example("q35-1g"), self.path("bad"))
        write(self.path("bad", "cmdline"), b"quiet mem=4GB\n")
        write(self.path("bad", "kernel"), b"0x1000000,0x3400000\n")
        status, out, err = tool("bootmem-fleet", "--raw", "--kernel", "16M,32M", "empty", "bad", "none", folder=self.work)
        self.check("fleet --raw: trouble", (status, err, [line.split("\t")[1:4] for line in out.splitlines()]),
                   (1, "", [["3", "bootmem: cannot read zp.bin", "-"], ["5", "bootmem: cmdline: word 2: mem", "-"], ["2", "no folder", "-"]]))
        status, out, err = tool("bootmem-fleet", "--kernel", "16M,32M", "empty", "bad", "none", folder=self.work)
        self.check("fleet: trouble", (status, err, [line.split("\t")[1:3] for line in out.splitlines()]),
                   (1, "", [["3", "bootmem61: cannot read zp.bin"], ["0", "-"], ["2", "no folder"]]))
        for words, wanted in ((("--cmdline-drop", "mem"), "none"), (("--cmdline-drop", "mem", "--cmdline-add", "crashkernel=512M,high"),
                                                                   "0x000000001f000000..0x000000003effffff"),
                              (("--cmdline-drop", "mem", "--cmdline-add", "crashkernel=2G,high"), "no area")):
            status, out, err = tool("bootmem-fleet", *words, "bad", folder=self.work)
            self.check(f"fleet {words}", (status, out.split("\t")[6], err), (4 if wanted == "no area" else 0, wanted, ""))
        for words, wanted in (("crashkernel=512MB,high", "word 1: crashkernel=512MB,high: left out: the kernel warns: unrecognized char: B"),
                              ("crashkernl=512M", "word 1: crashkernl=512M: passed over, by the kernel too: is crashkernel= meant?")):
            status, out, err = tool("bootmem-fleet", "--kernel", "16M,32M", "--cmdline-drop", "mem", "--cmdline-add", words, "bad", "bad",
                                    folder=self.work)
            self.check(f"fleet {words}: reported once", (status, out.count("\n"), err),
                       (5, 2, f"bootmem-fleet: --cmdline-add: {wanted}\n"
                       f"bootmem-fleet: --cmdline-add {words}: on none of 2 machines the kernel takes a crash area from it\n"))
        self.check("fleet: ranges are no complaint", tool("bootmem-fleet", "--cmdline-drop", "mem", "--cmdline-add",
                                                          "crashkernel=1G-4G:192M,4G-:256M", "bad", folder=self.work)[2], "")
        self.as_linux()
        os.makedirs(self.path("gap"))
        write(self.path("gap", "zp.bin"), zero_page([(0, 0x9FC00, 1), (MIB, GIB - MIB, 1)]))
        write(self.path("gap", "srat.bin"), inputs.srat([(0, GIB - 16 * 4096, 0)]))
        status, out, err = tool("bootmem-fleet", "--kernel", "16M,32M", "gap", folder=self.work)
        self.check("fleet: a known panic", (status, out.split("\t")[1], out.split("\t")[2][:56], err),
                   (3, "0", "Linux 6.1 panics: 16 frames of memory are in no block of", ""))
        self.check("fleet: a status goes before a panic", tool("bootmem-fleet", "--kernel", "16M,32M", "gap", "none", folder=self.work)[0], 1)
        status, out, err = tool("bootmem-fleet", "--raw", "--greatest", "pc-512m-crash64m", "q35-8g-numa2", "none", folder=EXAMPLES)
        self.check("fleet --greatest",
                   (status, [line.split("\t")[10:] for line in out.splitlines()]), (1, [["430", "430"], ["4095", "4095"], ["-", "-"]]))
        status, out, _ = tool("bootmem-fleet", "--raw", "--json", "--greatest", "pc-512m-crash64m", folder=EXAMPLES)
        row = json.loads(out)
        self.check("fleet --greatest --json",
                   (status, row["greatest"], fits(row, SCHEMA["$defs"]["machine"])), (0, {"plain": 430, "high": 430}, None))
        self.check("fleet, no folder", tool("bootmem-fleet")[:2], (2, ""))
        self.check("fleet, no program", tool("bootmem-fleet", "--program", "/nowhere", "bad", folder=self.work)[:2], (2, ""))
        status, out, err = tool("bootmem-fleet", "--kernel", "0xc0000000,32M", "--cmdline-drop", "mem", "bad", folder=self.work)
        self.check("fleet: an image in a hole", err, "bootmem-fleet: bad: --kernel 0xc0000000,32M: the map has no RAM at "
                   "0x00000000c0000000-0x00000000c1ffffff, so the image can't lie there whole; is it the place on another machine, or of "
                   "another boot (KASLR)?\n")
        if b"__asan_init" in bytes_of(PROGRAM61):
            return  # a program with sanitizers is slower
        for number in range(FOLDERS):
            os.symlink(example("q35-8g-numa2"), self.path(f"host{number}"))
        status, out, _ = tool("bootmem-fleet", *(f"host{number}" for number in range(FOLDERS)), folder=self.work)
        self.check("fleet: a thousand folders", (status, out.count("\n")), (0, FOLDERS))
        before = resource.getrusage(resource.RUSAGE_CHILDREN)
        status, out, _ = tool("bootmem-fleet", "--cmdline-drop", "crashkernel", "--cmdline-add", "crashkernel=1G-4G:192M,4G-64G:256M",
                              *(f"host{number}" for number in range(500)), folder=self.work)
        after = resource.getrusage(resource.RUSAGE_CHILDREN)
        spent = after.ru_utime + after.ru_stime - before.ru_utime - before.ru_stime
        self.check("fleet: 500 changed lines, the processors' time", (status, out.count("\n"), spent < 20),  # 5 s on four
                   (0, 500, True))

    def test_untaken(self):
        """The status says if the kernel takes no crash area from the added words on any machine:
        they are malformed or misspelt, no range has the total memory, or another word of the line
        counts before them."""
        for name, line in (("none", "quiet"), ("own", "quiet crashkernel=64M"),
                           ("high", "crashkernel=64M,high"), ("end", "quiet -- x")):
            os.makedirs(self.path(name))
            for file, data in (("zp.bin", zero_page([(0, 0x9FC00, 1), (MIB, GIB - MIB, 1)])),
                               ("cmdline", line), ("kernel", "16M,32M")):
                write(self.path(name, file), data)
        for words, folders, status in (
                ("crashkernel=128M", "none own high end", 0), ("crashkernel=128M,high", "none own",
                                                               0), ("crashkernel=128M,high", "own",
                                                                    5),
                ("crashkernel=128MB", "none own end", 5), ("crashkernl=128M", "none own", 5),
                ("Crashkernel=128M", "none", 5),
                ("crashkernel=2G", "none own", 4), ("crashkernel=2G-:128M", "none own", 5),
                ("crashkernel=2G-:128M", "high", 5),
                ("crashkernel=1G-:128M", "high own", 0),
                ("crashkernel=64G-:128M crashkernel=64M,high", "none", 0),
                ("crashkernel=64M,low", "none", 5), ("crashkernel=64M,low", "own", 0),
                ("crashkernel=0", "none own", 0),
                ("quiet", "none", 0), ("", "none", 0), ("crashkernel=128MB", "none nothing", 1),
                ("crashkernel=128M -- x", "none", 0)):
            got, _, err = tool("bootmem-fleet", "--cmdline-add", words, *folders.split(),
                               folder=self.work)
            self.check(f"fleet --cmdline-add {words!r} {folders}", (got,
                                                                    "the kernel takes a crash area from it" in err),
                       (status, status == 5 or "nothing" in folders))
        for words, folders, status in (("crashkernel=128M", "none", 0), ("crashkernel=2G-:128M",
                                                                         "none own", 5),
                                       ("crashkernl=128M", "own", 5)):
            self.check(f"fleet --raw --cmdline-add {words} {folders}", tool("bootmem-fleet",
                                                                            "--raw",
                                                                            "--cmdline-add", words,
                                                                            *folders.split(),
                                                                            folder=self.work)[0],
                       status)
        write(self.path("none", "srat.bin"), inputs.srat([(0, GIB - 16 * 4096, 0)]))
        self.check("a panic has priority", tool("bootmem-fleet", "--cmdline-add",
                                               "crashkernel=128MB", "none", folder=self.work)[0],
                   3)
        self.check("--help names the status",
                   all("5 if none of this and WORDS" in " ".join(text.split()) for text in
                                             (tool("bootmem-fleet", "--help")[1],)), True)

    def test_log(self):
        """The tool takes from a folder's log what bootmem-linux --log takes. --raw takes nothing, and a
        log that lacks the boot's start is ignored."""
        shutil.copytree(example("ovmf-2g-tpm"), self.path("host"))
        words = ["--report", "crash,summary", "--log", "log", "--efi", "efi.bin", "--cmdline",
                 "cmdline", "--kernel", "0x1600000,0x3400000", "zp.bin"]
        alone = tool("bootmem-linux", *words, folder=self.path("host"))[1]
        del words[words.index("--log"):words.index("--log") + 2]
        without = tool("bootmem-linux", *words, folder=self.path("host"))[1]
        rows = {}
        log = bytes_of(self.path("host", "log"))
        for what, data, said in (("log", log, "host: read: log: ACPI tables"),
                                 ("packed", gzip.compress(log), "host: read: log: "),
                                 ("late",
                                  b"[    9.000000] ACPI: Reserving DSDT table memory at [mem 0x3ff10000-0x3ff12fff]\n",
                                  "host: passed over: log: it has no line 'BIOS-provided physical RAM map:'"), ("none", None, None)):
            os.remove(self.path("host", "log"))
            if data is not None:
                write(self.path("host", "log"), data)
            status, out, err = tool("bootmem-fleet", "--verbose", "host", folder=self.work)
            rows[what] = out.split("\t")[5:7]
            self.check(f"fleet: {what}", (status, said is None or said in err, "log: " in err),
                       (0, True, said is not None))
            rows[what, "raw"] = tool("bootmem-fleet", "--raw", "host", folder=self.work)[1]
            if data is None:
                write(self.path("host", "log"), bytes(9))
        for what, text in (("log", alone), ("packed", alone), ("late", without),
                           ("none", without)):
            free = text.split("free ")[1].split()[0]
            self.check(f"fleet: {what}: as bootmem-linux", (rows[what][0],
                                                            f"crash at {rows[what][1]}\n" in text),
                       (free, True))
        self.check("fleet: the log matters", rows["log"] != rows["none"], True)
        self.check("fleet --raw: no log", len({row for what,
                                               row in rows.items() if "raw" in what}), 1)
        status, out, _ = tool("bootmem-fleet", "host", folder=self.work)
        self.check("fleet: a log that is no text", (status, out.split("\t")[1:3]),
                   (1, ["2", "host/log: no text of a log: it has a zero byte"]))

    def as_linux(self):
        """A line with ranges, and one that asks for no area. The area is the kernel's: its size is by total memory rounded up, and it
        lies below an initrd at 0x72800000."""
        os.makedirs(self.path("four"))
        write(self.path("four", "zp.bin"), inputs.zero_page([(0, 0x9FC00, 1), (MIB, 0x7FFDF000 - MIB, 1), (4 * GIB, 2 * GIB, 1)],
                                                            (0x72800000, 0xD7DF000)))
        for words, lines in (("crashkernel=1G-4G:192M,4G-64G:256M,64G-:512M", ("0x0000000062000000..0x0000000071ffffff",
                                                                                "0x0000000066000000..0x0000000071ffffff")),
                             ("crashkernel=auto", ("none", None))):
            write(self.path("four", "cmdline"), words)
            for raw, wanted in zip(([], ["--raw"]), lines):
                status, out, err = tool("bootmem-fleet", *raw, "--kernel", "16M,52M", "four", folder=self.work)
                self.check(f"fleet {raw}: {words}", (status, out.split("\t")[1], out.split("\t")[6].rstrip(), err),
                           (0, "0", wanted, "") if wanted else (1, "5", "-", ""))
        status, _, err = tool("bootmem-fleet", "--verbose", "--kernel", "16M,52M", "four", folder=self.work)
        self.has("fleet --verbose", err, "bootmem-fleet: four: changed: the line: word 1: crashkernel=auto: left out")


if __name__ == "__main__":
    unittest.main()
