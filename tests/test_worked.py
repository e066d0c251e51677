"""Worked examples of whole boots: inputs, words and the reports that the program prints for them.

A row of the table is one run, and its name says what it shows. A report is compared as a whole, or by successive lines in it (`Lines`).
"""

import unittest

from fault_tables.slit import slit
from support import MACHINE, RAM, RESERVED, SOFT, Case, machine_files, memory_of, run_over, srat, zero_page

FOUR_GIB = 1 << 32
MIB = 1 << 20
# A virtual machine of 128 MiB as QEMU describes it.
PC = [MACHINE[0], (0x9FC00, 0x400, RESERVED), (0xF0000, 0x10000, RESERVED), MACHINE[1], (0x7FE0000, 0x20000, RESERVED),
      (0xFFFC0000, 0x40000, RESERVED)]
# RAM with a hole below 4 GiB, as a machine of 8 GiB has it.
EIGHT_GIB = [(0x0, 0xA0000, RAM), (0x100000, 0xBFF00000, RAM), (FOUR_GIB, 0x140000000, RAM)]
# The low memory below 4 GiB is too small for the low part of a high crash area.
SMALL_LOW = [(0x0, 0xA0000, RAM), (0x100000, 0x7F00000, RAM), (FOUR_GIB, 0x40000000, RAM)]
ONE_NODE_INSIDE = srat(memory_of(0, 0, 0x4000000), memory_of(1, 0x4000000, 0x2000000), memory_of(0, 0x6000000, 0x2000000))
THREE_NODES = srat(memory_of(0, 0, 0x4000000), memory_of(1, 0x4000000, 0x2000000), memory_of(2, 0x6000000, 0x2000000))


class Lines(str):
    """Successive lines of a report."""

    def fit(self, report):
        return ("\n" + report).count("\n" + self) == 1


def pages_of_ram(last):
    """Memory up to 128 MiB, and single pages of RAM above it, one page apart."""
    return [(0x0, 0x9F000, RAM), (0x100000, 0x7F00000, RAM)] + [(0x8000000 + place * 0x2000, 0x1000, RAM) for place in range(1, last + 1)]


def soft_pages(count):
    """Single soft-reserved pages from 4 GiB on. Each is a record of its own in the reserved table."""
    return [(FOUR_GIB + place * 0x2000, 0x1000, SOFT) for place in range(count)]


def single_pages(count):
    """Single pages of RAM from 256 MiB on, one page apart, and no other memory."""
    return [(0x10000000 + place * 0x2000, 0x1000, RAM) for place in range(count)]


def reserves(count, base):
    """Lines of a script: each reserves one byte, and the bytes don't touch. The IDs begin with 1."""
    return "".join(f"reserve {number} 0x{base + number * 0x2000:x} 1\n" for number in range(1, count + 1))


def machine(entries, **inputs):
    """The files of a machine, by the names of their options. A text is encoded as ASCII."""
    files = {{"ext": "e820ext"}.get(name, name): held for name, held in machine_files(entries)[1].items()}
    return files | {name: held.encode() if isinstance(held, str) else held for name, held in inputs.items()}


def initrd(loader):
    """The machine of 128 MiB with an initrd of 0x123457 bytes at 0x7d00000. It counts only if `loader` isn't 0."""
    return {"zp": zero_page(PC, loader=loader, image=0x7D00000, size=0x123457)}


MEMORY = """\
   0: 0x0000000000001000..0x000000000009efff
   1: 0x0000000000100000..0x0000000007fdffff
"""
JOURNAL = """\
1: claim kernel 0x0000000001000000..0x0000000002ffffff
2: claim low-64k 0x0000000000000000..0x000000000000ffff
3: limit 0x0000000000100000
4: mem 0x0000000000001000..0x000000000009fbff
5: mem 0x0000000000100000..0x0000000007fdffff
6: trim
7: limit 0x0000000007fe0000
8: claim low-1m 0x0000000000000000..0x00000000000fffff
9: node 0 0x0000000000000000..0x0000000007fdffff
10: claim node-data 0 0x0000000007fb5000..0x0000000007fdffff
11: claim roots 0x0000000007fb1000..0x0000000007fb4fff
12: claim root 0 0x0000000007fb0000..0x0000000007fb0fff
13: claim usage 0 0x0000000007faffc0..0x0000000007faffe7
14: claim map 0 0x0000000007c00000..0x0000000007dfffff
"""
NO_FREE_BLOCK = "".join(f"Node 0, zone {zone:>8} {' '.join('     0' for _ in range(11))} \n" for zone in ("DMA", "DMA32"))
# A script that claims all memory that is left, then 128 single bytes above 4 GiB, each a record of its own.
ALL_CLAIMED = "sections\nreserve 9001 0x100000 0xF00000\nreserve 9002 0x3000000 0x4FB0000\n" + reserves(128, FOUR_GIB)
PAGES = "pages 1 0 0 DMA\npages 2 9 0 DMA\npages 3 10 1 DMA\npages 1 0 0 DMA\ngive 1\ngive 1\n"
MIRRORED = ["--mirror", "0x4000000,0x1000000"]
WIDE = [*PC, (0x400000000000, 0x8000000, RAM)]
KERNEL_ABOVE = ["--kernel", "0x400000000000,0x2000"]


def crash(name, entries, line, text):
    """A row on the crash area that a command line asks for."""
    return name, machine(entries, cmdline=line), [], {"crash": text}


# name, files, further words, reports with their texts
PRINTED = [
    crash("a crash area of 64 MiB", PC, "crashkernel=64M", "crash at 0x0000000003000000..0x0000000006ffffff\n"),
    crash("a crash area that doesn't fit", PC, "crashkernel=80M", "crash no area\n"),
    crash("a crash area at a place that is claimed", PC, "crashkernel=16M@0x3080000", "crash in use\n"),
    crash("a crash area at a free place", PC, "crashkernel=16M@48M", "crash at 0x0000000003000000..0x0000000003ffffff\n"),
    crash("a crash area by ranges of memory", PC, "crashkernel=0-64M:8M,64M-:16M", "crash at 0x0000000006000000..0x0000000006ffffff\n"),
    crash("a high crash area with its low part", EIGHT_GIB, "crashkernel=512M,high",
          "crash at 0x000000021f000000..0x000000023effffff\ncrash low 0x00000000b0000000..0x00000000bfffffff\n"),
    crash("a high crash area without a low part", EIGHT_GIB, "crashkernel=512M,high crashkernel=0,low",
          "crash at 0x000000021f000000..0x000000023effffff\n"),
    crash("a low part that doesn't fit", SMALL_LOW, "crashkernel=512M,high", "crash low failed\n"),
    crash("the last plain form counts, and 0 asks for no area", PC, "crashkernel=64M crashkernel=0", "crash none\n"),
    ("the memory table grows below 1 MiB", machine(pages_of_ram(127)), [], {"tables": """\
memory place 0x000000000009d000 room 256 records 129
reserved place 0x0000000002fff000 room 128 records 6
"""}),
    ("the memory table grows again when the nodes are set, and its old place is free", machine(pages_of_ram(253)), [], {
        "tables": """\
memory place 0x0000000007ffd000 room 512 records 255
reserved place 0x0000000002fff000 room 128 records 7
""",
        "journal": Lines("266: free 0x000000000009d000..0x000000000009efff\n"),
        "blocks": Lines("""\
node 0 zone DMA order 0 0x000000000009d000
node 0 zone DMA order 0 0x000000000009e000
""")}),
    ("the reserved table grows for a line of the script", machine(PC, script=reserves(130, 0x4000000)), [], {
        "tables": """\
memory place 0x0000000002ffe000 room 128 records 2
reserved place 0x0000000007fb3000 room 256 records 135
""",
        "journal": Lines("""\
136: grown reserved 0x0000000007fb3000 room 256
137: claim table-reserved 0x0000000007fb3000..0x0000000007fb4fff
138: claim script 126 0x00000000040fc000..0x00000000040fc000
"""),
        "script": "".join(f"{number}: done\n" for number in range(1, 131))}),
    ("no memory is left for the reserved table", machine(PC, script=ALL_CLAIMED), [], {
        "tables": """\
memory place 0x0000000002ffe000 room 128 records 2
reserved place 0x0000000002fff000 room 128 records 128
""",
        "script": "".join(f"{number}: done\n" for number in range(2, 131)) + "131: no gap for table reserved room 128\n",
        "buddyinfo": NO_FREE_BLOCK}),
    ("a gap one byte too small, and one that fits exactly",
     machine(PC, script="alloc 1 0x4fb5001 0x1000 min 0x3000000\nalloc 2 0x4fb5000 0x1000\n"), [],
     {"script": "1: no gap\n2: at 0x0000000003000000\n"}),
    ("no allocation crosses the border of two nodes",
     machine(PC, srat=ONE_NODE_INSIDE, script="alloc 1 0x2000000 0x1000\nalloc 2 0x1fd5000 0x1000\n"), [],
     {"script": "1: no gap\n2: at 0x0000000004000000\n"}),
    ("the sections of a machine of 128 MiB", machine(PC), [], {"sections": """\
roots 0x0000000007fb1000
root 0 0x0000000007fb0000
section 0 node 0 map 0x0000000007c00000 usage 0x0000000007faffc0
"""}),
    ("an initrd is claimed, and the section's map lies below it", initrd(0xB0), [], {
        "owners": """\
   0: 0x0000000000000000..0x00000000000fffff low-1m
   1: 0x0000000001000000..0x0000000002ffffff kernel
   2: 0x0000000007a00000..0x0000000007bfffff map 0
   3: 0x0000000007d00000..0x0000000007e23fff initrd
   4: 0x0000000007faffc0..0x0000000007faffe7 usage 0
   5: 0x0000000007fb0000..0x0000000007fb0fff root 0
   6: 0x0000000007fb1000..0x0000000007fb4fff roots
   7: 0x0000000007fb5000..0x0000000007fdffff node-data 0
""",
        "sections": """\
roots 0x0000000007fb1000
root 0 0x0000000007fb0000
section 0 node 0 map 0x0000000007a00000 usage 0x0000000007faffc0
"""}),
    ("without a loader there is no initrd", initrd(0), [], {"journal": JOURNAL}),
    ("mirrored memory is a record of its own", machine(PC), MIRRORED, {"memory": """\
   0: 0x0000000000001000..0x000000000009efff
   1: 0x0000000000100000..0x0000000003ffffff
   2: 0x0000000004000000..0x0000000004ffffff
   3: 0x0000000005000000..0x0000000007fdffff
"""}),
    ("what doesn't fit into mirrored memory goes elsewhere", machine(PC, script="alloc 1 0x2000000 0x1000\n"), MIRRORED,
     {"script": "1: at 0x0000000005fe0000\n"}),
    ("with --bottom-up all data is placed from 1 MiB upwards", machine(PC), ["--bottom-up"], {"reserved": """\
   0: 0x0000000000000000..0x0000000000130027
   1: 0x0000000001000000..0x00000000031fffff
"""}),
    ("memory above 2^46 is out of reach without --la57", machine(WIDE), [], {"memory": MEMORY}),
    ("requests for pages", machine(PC, pages=PAGES), [], {
        "pages": """\
1: at 0x0000000000100000
2: at 0x0000000000200000
3: no block
4: taken
5: done
6: unknown
""",
        "pagesinfo": Lines("Node 0, zone      DMA      0      0      0      0      0      0      0      0      1      0      3 \n")}),
    ("zone lists by distance, and a request near a node",
     machine(PC, srat=THREE_NODES, slit=slit(3, [10, 30, 20, 30, 10, 20, 20, 20, 10]), pages="near 1 10 1\n"), [], {
         "zonelists": """\
slit used
Node 0: 0/DMA32 0/DMA 2/DMA32 1/DMA32
Node 1: 1/DMA32 2/DMA32 0/DMA32 0/DMA
Node 2: 2/DMA32 0/DMA32 0/DMA 1/DMA32
""",
         "pages": "1: at 0x0000000004000000\n"}),
    ("zone lists if the distances aren't valid",
     machine(PC, srat=THREE_NODES, slit=slit(3, [10, 30, 20, 30, 11, 20, 20, 20, 10]), pages="near 1 10 1\n"), [], {
         "zonelists": """\
slit not valid 1 1
Node 0: 0/DMA32 0/DMA 1/DMA32 2/DMA32
Node 1: 1/DMA32 0/DMA32 0/DMA 2/DMA32
Node 2: 2/DMA32 0/DMA32 0/DMA 1/DMA32
""",
         "pages": "1: at 0x0000000004000000\n"}),
]

NO_PLACE = "bootmem: stopped: no place for "
# The boot claims all of this memory before it stops: 172 KiB of node data, and the other ranges of a row.
NODE_DATA = (0x8000000, 0x2B000, RAM)
CRASH_AREA = (0x7000000, 0x1000000, RAM)
WITH_ROOTS = (0x8000000, 0x2F000, RAM)

# name, files, further words, status, line on standard error
ENDED = [
    ("a kernel above 2^46 needs --la57", machine(PC), KERNEL_ABOVE, 2, "bootmem: usage"),
    ("126 memory records leave room for the one that the nodes add", machine(single_pages(126)), [], 6, NO_PLACE + "node-data 0"),
    ("the memory table has no place when the nodes are set", machine(single_pages(127)), [], 6, NO_PLACE + "table memory room 128"),
    ("127 reserved records leave room for the crash area", machine([CRASH_AREA, NODE_DATA, *soft_pages(124)], cmdline="crashkernel=16M"), [], 6,
     NO_PLACE + "roots"),
    ("the reserved table has no place when the crash area is claimed",
     machine([CRASH_AREA, NODE_DATA, *soft_pages(125)], cmdline="crashkernel=16M"), [], 6,
     NO_PLACE + "table reserved room 128"),
    ("127 reserved records leave room for the roots of the sections", machine([WITH_ROOTS, *soft_pages(124)]), [], 6, NO_PLACE + "root 0"),
    ("the reserved table has no place when the roots are claimed", machine([WITH_ROOTS, *soft_pages(125)]), [], 6,
     NO_PLACE + "table reserved room 128"),
]


def words_for(files, reports, more):
    """The words of a run with these reports and files, and `more` words."""
    words = ["--report", ",".join(reports), *more]
    for name in files:
        if name != "zp":
            words += ["--" + name, name]
    return [*words, "zp"]


def parts(text, names):
    """The text of each report by its name."""
    if len(names) == 1:
        return {names[0]: text}
    found = {}
    for part in text.split("== ")[1:]:
        name, _, body = part.partition("\n")
        found[name] = body
    return found


class Worked(Case):
    """Whole boots, worked out by hand."""

    def test_printed(self):
        """Boots that succeed: their reports."""
        for name, files, more, reports in PRINTED:
            names = list(reports)
            status, out, err = run_over(files, words_for(files, names, more))
            self.check(name, (status, err), (0, ""))
            told = parts(out, names)
            for report, text in reports.items():
                got = told.get(report, "no such report")
                self.check(f"{name}: {report}", text if isinstance(text, Lines) and text.fit(got) else got, text)

    def test_ended(self):
        """Boots that fail: their status and their line on standard error."""
        for name, files, more, status, line in ENDED:
            self.check(name, run_over(files, words_for(files, ["map"], more)), (status, "", line + "\n"))


if __name__ == "__main__":
    unittest.main()
