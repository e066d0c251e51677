"""claims-from-log: compares the inputs that it makes of a log's claims with the replays of examples/ and with the kernels' crash areas."""

import os
import re
import struct
import unittest

from support import Case, bytes_of, entries_of, example, has_file, machines, program, text_of, tool, words_of, write

ROOMS = 1 << 20  # lines with IDs from here on reserve a room


def replay_lines(name, file):
    """The lines of a file of a machine's replay."""
    return text_of(example(name, os.path.join("replay", file))).splitlines()


def replay_memory(name):
    """Memory and soft reserved ranges of a replay (base, size and type of each), and how many nodes it has.

    The last entries, one per node, aren't memory of the machine: they are room for what the program claims by itself."""
    page = bytes_of(example(name, "replay/zp.bin"))
    entries = entries_of(page, page[0x1E8], 0x2D0)
    if has_file(name, "replay/e820ext.bin"):
        data = bytes_of(example(name, "replay/e820ext.bin"))
        entries += entries_of(data, (len(data) - 16) // 20, 16)
    nodes = sum(line.startswith("reserve ") and int(line.split()[1]) >= ROOMS for line in replay_lines(name, "script"))
    return entries[:-nodes], nodes


def noded_memory(name, nodes):
    """The memory ranges in a replay's SRAT: base, size and node of each."""
    data = bytes_of(example(name, "replay/srat.bin"))
    place, found = 48, []
    while place < len(data):
        if data[place] == 1:
            found.append(struct.unpack_from("<QQ", data, place + 8) + struct.unpack_from("<I", data, place + 2))
        place += data[place + 1]
    return found[:-nodes]


def call_line(what, base, size, caller):
    """The kernel's line for a call of memblock that names a range."""
    return f"[    0.000000] {what}: [{base:#018x}-{base + size - 1:#018x}] {caller}+0x65/0x7d\n"


def dump_lines(table, ranges):
    """The kernel's lines for a table of memblock. A range is its base, its size and perhaps its node."""
    lines = [f"[    0.000000]  {table}.cnt  = {len(ranges):#x}\n"]
    for number, (base, size, *node) in enumerate(ranges):
        on_node = f" on node {node[0]}" if node else ""
        lines.append(f"[    0.000000]  {table}[{number:#x}]\t[{base:#018x}-{base + size - 1:#018x}], {size:#018x} bytes{on_node} flags: 0x0\n")
    return lines


def asked_lines(words, place, caller):
    """The kernel's lines for an allocation of a script by this function, which got this place."""
    size, align = int(words[2]), int(words[3])
    rest = dict(zip(words[4::2], words[5::2]))
    answer = call_line("memblock_reserve", place, size, "memblock_alloc_range_nid")
    if (size, align, list(rest)) == (0x2B000, 64, ["node"]):
        return [answer, f"[    0.000000] NODE_DATA({rest['node']}) allocated [mem {place:#x}-{place + size - 1:#x}]\n"]
    window = f"from={int(rest.get('min', '0'), 16):#018x} max_addr={int(rest.get('max', '0'), 16):#018x} {caller}+0x1/0x2"
    what = "memblock_alloc_exact_nid_raw" if words[-1] == "exact" else "memblock_alloc_try_nid"
    node = f" nid={rest.get('node', '-1')}" if "node" in rest or "max" not in rest else ""
    what = what if node else "memblock_phys_alloc_range"
    return [f"[    0.000000] {what}: {size} bytes align={align:#x}{node} {window}\n", answer]


def first_dump(reserves, kernel):
    """The reserved records of a kernel's first dump, for the first claims of a script. Image and brk adjoin, so they are one record."""
    base, size = (int(part, 16) for part in kernel.split(","))
    return [(base, size + length) if first == base + size else (first, length) for first, length in reserves]


def some_function(words):
    """A name for the function that asked for an allocation."""
    return "some_function"


def claims_log_of(name, caller_of=some_function):
    """The log that a kernel with memblock=debug would write for the claims of a machine's replay. `caller_of` returns the function
    that asked for an allocation with given words."""
    memory, nodes = replay_memory(name)
    kernel = replay_lines(name, "words")[0].split()[1]
    script = [line.split() for line in replay_lines(name, "script")]
    script, end = script[nodes:-nodes], [words[0] for words in script[-nodes:]]
    answers = {int(line.split(": ", 1)[0]) - nodes: line.split(": ", 1)[1] for line in replay_lines(name, "script.txt")}
    first = next(number for number, words in enumerate(script) if words[0] != "reserve")
    assert end == ["free"] * nodes
    made = [call_line(*{1: ("memblock_add", base, size)}.get(kind, ("memblock_reserve", base, size)), "e820__memblock_setup")
            for base, size, kind in memory]
    lines = made + ["[    0.000000] MEMBLOCK configuration:\n"] + dump_lines("memory", [one[:2] for one in memory if one[2] == 1])
    lines += dump_lines("reserved", first_dump([(int(words[2], 16), int(words[3], 16)) for words in script[:first]], kernel))
    for number, words in enumerate(script[first:], first + 1):
        if words[0] == "alloc":
            lines += asked_lines(words, int(answers[number][3:], 16), caller_of(words))
        elif words[0] == "reserve":
            freed = script[number:number + 1] == [["free", words[1]]]
            lines.append(call_line("memblock_phys_free" if freed else "memblock_reserve", int(words[2], 16), int(words[3], 16), "some_function"))
    if has_file(name, "replay/srat.bin"):
        lines += ["[    0.000000] MEMBLOCK configuration:\n"] + dump_lines("memory", noded_memory(name, nodes))
    return "".join(lines)


class Claims(Case):
    """Claims in a kernel's log."""

    def same_replay(self, what, name, made):
        """Checks that the folder has the machine's replay, byte for byte, and the kernel's own places."""
        for file in ("zp.bin", "script", "srat.bin", "e820ext.bin", "words"):
            paths = [os.path.join(made, file), example(name, os.path.join("replay", file))]
            self.check(f"{what}: {file}", *(bytes_of(path) if os.path.exists(path) else None for path in paths))
        self.check(f"{what}: places", text_of(os.path.join(made, "places")).splitlines(),
                   [line for line in replay_lines(name, "script.txt") if ": at " in line or ": no gap" in line])

    def test_claims(self):
        """Each replay is made again from the kernel's log; if the log wasn't kept, from one that is made of the replay's claims."""
        made = real = 0
        for name in machines():
            folder = self.path(name)
            if has_file(name, "replay/script"):
                made += 1
                kernel = replay_lines(name, "words")[0].split()[1]
                status, out, err = tool("claims-from-log", "--replay", folder, "--kernel", kernel, given=claims_log_of(name))
                self.check(f"claims {name}", (status, out, err), (0, text_of(example(name, "replay/words")), ""))
                self.same_replay(f"claims {name}", name, folder)
            if has_file(name, "log"):
                real += 1
                self.check(f"claims {name}, its log", tool("claims-from-log", "--replay", folder, example(name, "log"))[::2], (0, ""))
                self.same_replay(f"claims {name}, its log", name, folder)
        self.check("claims: replays, and logs of their kernels", (made, real), (47, 13))

    def test_brk(self):
        """Each replay claims brk, which follows the image in one record of the first dump."""
        for name in machines():
            if has_file(name, "replay/script"):
                base, size = (int(part, 16) for part in replay_lines(name, "words")[0].split()[1].split(","))
                brk = [(number, words.split()[3]) for number, words in enumerate(replay_lines(name, "script"), 1)
                       if words.split()[2:3] == [f"{base + size:#x}"]]
                self.check(f"{name}: brk", [size for _, size in brk], ["0x11000"])
                self.check(f"{name}: brk is claimed", f"{brk[0][0]}: done" in replay_lines(name, "script.txt"), True)

    def test_rooms(self):
        """The program's own claims for sections lie in rooms above the machine's memory. So sections aren't claimed twice there."""
        for name in machines():
            if has_file(name, "replay/script"):
                top = max(base + size for base, size, kind in replay_memory(name)[0] if kind == 1)
                owners = program(example(name, "replay"), "--report", "owners", *replay_lines(name, "words")[0].split())
                own = re.findall(r"^ *\d+: (0x\w+)\.\.\S+ (?:map|usage|roots?|node-data)\b", owners, re.MULTILINE)
                self.check(f"{name}: claims of its own below the rooms", [place for place in own if int(place, 16) < top], [])
                self.check(f"{name}: claims of its own", len(own) > 3, True)

    def test_moved_initrd(self):
        """The log's line on an initrd that moved (relocate_initrd) isn't taken for the initrd's first place."""
        log, made = text_of(example("pc-1g-crashfixed", "log")), []
        moved = re.sub(r"(.* )(RAMDISK: .*\n)", r"\1\2\1Allocated new RAMDISK: [mem 0x3f000000-0x3f0fffff]\n", log)
        self.check("an initrd that moves: its line", moved.count("new RAMDISK"), 1)
        for text in (log, moved):
            status, _, err = tool("claims-from-log", "--e820ext", self.path("early"), given=text)
            self.check("an initrd that moves: status", (status, err), (0, ""))
            made.append(bytes_of(self.path("early")))
        self.check("an initrd that moves: extension", made[1], made[0])

    def test_early(self):
        """With a kernel's claims the crash area lies where its log has it, and every later claim finds its memory free."""
        for name in ("pc-1g-crashfixed", "q35-8g-numa2", "ovmf-4g-numa2"):
            log = text_of(example(name, "log"))
            size, base = (int(part) << 20 for part in re.search(r"Reserving (\d+)MB of memory at (\d+)MB for crashkernel", log).groups())
            files = [self.path(file) for file in ("early", "later")]
            srat = ["--srat", "srat.bin"] if has_file(name, "srat.bin") else []
            for places in ([], ["--places"]):
                status, out, err = tool("claims-from-log", "--e820ext", files[0], "--script", files[1], *places, given=log)
                self.check(f"early {name}", (status, err), (0, ""))
                text = program(example(name), "--report", "crash,script", *out.split(), "--cmdline", "cmdline", *srat, "zp.bin")
                self.check(f"early {name}: crash", text.splitlines()[1:2], [f"crash at {base:#018x}..{base + size - 1:#018x}"])
                self.check(f"early {name}: script", re.findall(r"^\d+: (?!at |done).*", text, re.MULTILINE), [])
                self.check(f"early {name}: sections first", text_of(files[1])[:9], "sections\n")
        # the kernel had claimed a range where the program alone puts the area
        self.check("early: without them", program(example("ovmf-4g-numa2"), "--report", "crash", *words_of("ovmf-4g-numa2")).split()[2:],
                   ["0x0000000075000000..0x000000007cffffff"])
        # a grown table lies below the kernel's claims there
        grown = claims_log_of("zp-holes260") + "memblock: memory is doubled to 512 at [0x9a000-0x9cfff]\n"
        lower = re.sub(r"\[0x0{11}9f000-", "[0x000000000009c000-", grown).replace("[0x9a000-0x9cfff]", "[0x97000-0x99fff]").replace(
            "[0x000000000009a000-0x000000000009cfff]", "[0x0000000000097000-0x0000000000099fff]")
        for text, place in ((grown, 0x9A000), (lower, 0x97000)):
            _, out, err = tool("claims-from-log", "--e820ext", files[0], "--over", example("zp-holes260", "e820ext.bin"), "--kernel",
                               "0x1000000,0x3400000", given=text)
            tables = program(example("zp-holes260"), "--report", "tables", *out.split(), "--cmdline", "cmdline", "zp.bin")
            self.check(f"early: a grown table at {place:#x}", (err, tables.split()[2:5]), ("", [f"{place:#018x}", "room", "512"]))
        old = struct.pack("<QIIQQI", 0, 1, 20, 1 << 40, 4096, 2)
        write(files[1], old)
        tool("claims-from-log", "--e820ext", files[0], "--over", files[1], given=log)
        self.check("early --over", (bytes_of(files[0])[16:36], len(bytes_of(files[0])) > 36), (old[16:], True))
        log = text_of(example("pc-1g-crashfixed", "log"))
        status, out, err = tool("claims-from-log", "--e820ext", files[0], given=re.sub(r".*setup_arch\+0x797.*\n", "", log))
        self.check("early: no place of the image", (status, err.count("\n"), out.split()[1]), (0, 1, "0x1000000,0x2000000"))
        # an allocation that is trimmed, and one that is freed as a whole
        freed = re.sub(r"^#.*\n", "", tool("claims-from-log", "--e820ext", files[0], "--script", files[1], given=log)[1] and text_of(files[1]),
                       flags=re.MULTILINE).splitlines()
        trims = [line for line in freed if line.startswith("trim")]
        self.check("early: the rest of the per-CPU area", [line.split()[2] for line in trims], [str(0x3E000)])
        self.check("early: nothing is reserved to be freed", [line for line in freed if line.startswith("reserve")], [])
        newer = re.sub(r"(memblock_reserve: \[.*?\]) ", r"\1 nid=1024 flags=20 ", log)
        for what, text in (("a newer kernel", newer), ("the free of older ones", log.replace("phys_free", "free")),
                           ("two boots", text_of(example("q35-8g-numa2", "log")) + log)):
            status, _, err = tool("claims-from-log", "--e820ext", files[0] + "2", "--script", files[1] + "2", given=text)
            self.check(f"early, {what}", (status, err.count("\n"), bytes_of(files[1] + "2") == bytes_of(files[1])),
                       (0, int(what == "two boots"), True))
        for what, text in (("no dump", re.sub("MEMBLOCK", "memory", log)), ("nothing", "")):
            status, out, err = tool("claims-from-log", "--e820ext", files[0], given=text)
            self.check(f"early, {what}", (status, out, err.count("\n")), (1, "", 1))
        for bad in ([], ["--replay", self.work, "--e820ext", "x"], ["--e820ext", "x", "--places"], ["--e820ext", "x", "--kernel", "1M"]):
            self.check(f"early {bad}", tool("claims-from-log", *bad, given=log)[:2], (2, ""))


if __name__ == "__main__":
    unittest.main()
