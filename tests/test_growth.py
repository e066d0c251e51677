"""Growth of memblock's two tables when memory for the new table is scarce: there is no gap, or a single one; the claim of the new place
makes the other table grow as well; or the old place can't be released.

The name of a case says what it shows. Its text is the whole report `tables`, or some lines of the journal or of the report `script`,
which are found by their numbers.
"""
import unittest

from support import MACHINE, RAM, RESERVED, SOFT, Case, machine_files, run_over

LOW = (0x0, 0xA0000, RAM)
MAIN = (0x100000, 0x7F00000, RAM)


def pages(count, base, kind):
    """Single pages of this type, one page apart. The first one is two pages above the base."""
    return [(base + place * 0x2000, 0x1000, kind) for place in range(1, count + 1)]


def soft(count):
    return pages(count, 0x8000000, SOFT)


def high(count):
    return pages(count, 0x10000000, RAM)


def near(count):
    return pages(count, 0x8000000, RAM)


def reserves(first, last, base):
    """Lines of a script: each reserves one byte, and the bytes don't touch. The IDs are first to last."""
    return "".join(f"reserve {number} 0x{base + number * 0x2000:x} 1\n" for number in range(first, last + 1))


# A script that claims all memory above 1 MiB. With the sections' places it is one record of the reserved table.
FULL = "sections\nreserve 9001 0x100000 0xF00000\nreserve 9002 0x3000000 0x4FB0000\n"
ABOVE = 0x100000000
HERE = 0x4000000
# A machine of 128 MiB. Before the script it has three reserved records: the kernel's image, the first MiB and the data of node 0.
PC = MACHINE + [(0x7FE0000, 0x20000, RESERVED)]

NO_MEMORY_PLACE = "bootmem: stopped: no place for table memory room 128"
NO_RESERVED_PLACE = "bootmem: stopped: no place for table reserved room 128"

# name, entries, line on standard error
STOPPED = [
    ("the memory table has no place below 1 MiB", [MAIN] + near(128), NO_MEMORY_PLACE),
    ("the only gap is one frame too small", [(0x10000, 0x1000, RAM), MAIN] + near(127), NO_MEMORY_PLACE),
    ("two gaps of a frame each", [(0x10000, 0x1000, RAM), (0x12000, 0x1000, RAM), MAIN] + near(126), NO_MEMORY_PLACE),
    ("no table is placed in the first 64 KiB", [(0x1000, 0xF000, RAM), MAIN] + near(127), NO_MEMORY_PLACE),
    ("the reserved table has no place below 1 MiB", [MAIN] + soft(127), NO_RESERVED_PLACE),
    ("a place for the memory table, but then none for the reserved one",
     [(0x11000, 0x2000, RAM), MAIN] + soft(126) + high(127), NO_RESERVED_PLACE),
]

# name, entries, script, report, text
WENT_ON = [
    ("128 memory records fit into the first table", [MAIN] + near(127), "", "tables", """\
memory place 0x0000000007ffe000 room 256 records 128
reserved place 0x0000000002fff000 room 128 records 6
"""),
    ("the only gap", [(0x10000, 0x2000, RAM), MAIN] + near(127), "", "journal", """\
131: mem 0x00000000080fc000..0x00000000080fcfff
132: claim table-memory 0x0000000000010000..0x0000000000011fff
133: grown memory 0x0000000000010000 room 256
134: mem 0x00000000080fe000..0x00000000080fefff
135: trim
"""),
    ("the reserved table has 128 records", [LOW, MAIN] + soft(126), "", "journal", """\
131: claim soft-reserved 0x00000000080fc000..0x00000000080fcfff
132: trim
"""),
    ("the reserved table grows below 1 MiB", [LOW, MAIN] + soft(127), "", "journal", """\
131: claim soft-reserved 0x00000000080fc000..0x00000000080fcfff
132: grown reserved 0x000000000009e000 room 256
133: claim table-reserved 0x000000000009e000..0x000000000009ffff
134: claim soft-reserved 0x00000000080fe000..0x00000000080fefff
135: trim
"""),
    ("the claim of the new place makes the other table grow", [LOW, MAIN] + soft(126) + high(127), "", "journal", """\
257: mem 0x00000000100fc000..0x00000000100fcfff
258: grown reserved 0x000000000009c000 room 256
259: claim table-reserved 0x000000000009c000..0x000000000009dfff
260: claim table-memory 0x000000000009e000..0x000000000009ffff
261: grown memory 0x000000000009e000 room 256
262: mem 0x00000000100fe000..0x00000000100fefff
"""),
    ("the release of the old place makes the other table grow", [LOW, MAIN] + soft(124) + high(255), "", "journal", """\
385: mem 0x00000000101fc000..0x00000000101fcfff
386: claim table-memory 0x000000000009b000..0x000000000009dfff
387: grown memory 0x000000000009b000 room 512
388: grown reserved 0x0000000000099000 room 256
389: claim table-reserved 0x0000000000099000..0x000000000009afff
390: free 0x000000000009e000..0x000000000009ffff
391: mem 0x00000000101fe000..0x00000000101fefff
"""),
    ("that growth fails, and the old place stays claimed", [(0x11000, 0x5000, RAM), MAIN] + soft(124) + high(255), "", "journal",
     """\
386: claim table-memory 0x0000000000011000..0x0000000000013fff
387: grown memory 0x0000000000011000 room 512
388: mem 0x00000000101fe000..0x00000000101fefff
389: trim
"""),
    ("the memory table moves before the nodes are set", [(0x0, 0x9F000, RAM), MAIN] + near(253), "", "journal", """\
132: claim table-memory 0x000000000009d000..0x000000000009efff
133: grown memory 0x000000000009d000 room 256
134: mem 0x00000000080fe000..0x00000000080fefff
263: claim low-1m 0x0000000000000000..0x00000000000fffff
264: claim table-memory 0x0000000007ffd000..0x0000000007ffffff
265: grown memory 0x0000000007ffd000 room 512
266: free 0x000000000009d000..0x000000000009efff
267: node 0 0x0000000000000000..0x00000000081fafff
"""),
    ("a table's old place holds zeros, its new one the records", [(0x0, 0x9F000, RAM), MAIN] + near(253),
     "peek 0x9d000 24\npeek 0x9e7e8 24\npeek 0x7ffd000 24\n", "script", """\
1: bytes 000000000000000000000000000000000000000000000000
2: bytes 000000000000000000000000000000000000000000000000
3: bytes 001000000000000000e00900000000000000000000000000
"""),
    ("the script fills the reserved table, and the section roots make it grow", PC, reserves(1, 125, HERE), "journal", """\
135: claim script 125 0x00000000040fa000..0x00000000040fa000
136: grown reserved 0x0000000007faf000 room 256
137: claim table-reserved 0x0000000007faf000..0x0000000007fb0fff
138: claim roots 0x0000000007fb1000..0x0000000007fb4fff
"""),
    ("a line of the script makes the reserved table grow", PC, reserves(1, 126, HERE), "journal", """\
135: claim script 125 0x00000000040fa000..0x00000000040fa000
136: grown reserved 0x0000000007fb3000 room 256
137: claim table-reserved 0x0000000007fb3000..0x0000000007fb4fff
138: claim script 126 0x00000000040fc000..0x00000000040fc000
139: claim roots 0x0000000007faf000..0x0000000007fb2fff
"""),
    ("it grows again, and an allocation goes to its old place", PC, reserves(1, 260, HERE), "journal", """\
265: claim script 253 0x00000000041fa000..0x00000000041fa000
266: grown reserved 0x0000000007fb0000 room 512
267: claim table-reserved 0x0000000007fb0000..0x0000000007fb2fff
268: free 0x0000000007fb3000..0x0000000007fb4fff
269: claim script 254 0x00000000041fc000..0x00000000041fc000
275: claim script 260 0x0000000004208000..0x0000000004208000
276: claim roots 0x0000000007fac000..0x0000000007faffff
277: claim root 0 0x0000000007fb4000..0x0000000007fb4fff
278: claim usage 0 0x0000000007fb3fc0..0x0000000007fb3fe7
279: claim map 0 0x0000000007c00000..0x0000000007dfffff
"""),
    ("no place above the claimed range, so the table lies below it", PC, reserves(1, 125, HERE) + "reserve 500 0x7000000 0xfb5000\n",
     "journal", """\
136: grown reserved 0x0000000006ffe000 room 256
137: claim table-reserved 0x0000000006ffe000..0x0000000006ffffff
138: claim script 500 0x0000000007000000..0x0000000007fb4fff
139: claim roots 0x0000000006ffa000..0x0000000006ffdfff
"""),
    ("the new table doesn't meet the range that is being claimed", PC, reserves(1, 125, HERE) + "alloc 500 4K 4K\n", "journal", """\
136: grown reserved 0x0000000007fb2000 room 256
137: claim table-reserved 0x0000000007fb2000..0x0000000007fb3fff
138: claim script 500 0x0000000007fb4000..0x0000000007fb4fff
"""),
    ("126 records, and a release needs no more", PC, reserves(1, 123, HERE) + "free 1\n", "journal", """\
133: claim script 123 0x00000000040f6000..0x00000000040f6000
134: free 0x0000000004002000..0x0000000004002000
"""),
    ("127 records, and a release makes the table grow", PC, reserves(1, 124, HERE) + "free 1\n", "journal", """\
134: claim script 124 0x00000000040f8000..0x00000000040f8000
135: grown reserved 0x0000000007fb3000 room 256
136: claim table-reserved 0x0000000007fb3000..0x0000000007fb4fff
137: free 0x0000000004002000..0x0000000004002000
"""),
    ("no memory is free, and the 129th record is refused", PC, FULL + reserves(1, 128, ABOVE) + "free 128\n", "script", """\
2: done
3: done
130: done
131: no gap for table reserved room 128
132: unknown
"""),
    ("no memory is free, and at 126 records a release needs none", PC, FULL + reserves(1, 125, ABOVE) + "free 125\nfree 125\n", "script",
     """\
128: done
129: done
130: unknown
"""),
    ("no memory is free, and at 127 records a release is refused", PC,
     FULL + reserves(1, 126, ABOVE) + "free 126\ntrim 9002 4K\nfill 126 1\nfree 127\nalloc 127 1 1\n", "script", """\
129: done
130: no gap for table reserved room 128
131: no gap for table reserved room 128
132: done
133: unknown
134: no gap
"""),
    ("two frames are free, and a release takes them for the table", PC,
     FULL.replace("0x4FB0000", "0x4FAD000") + reserves(1, 124, ABOVE) + "free 124\n", "journal", """\
140: claim script 124 0x00000001000f8000..0x00000001000f8000
141: grown reserved 0x0000000007fad000 room 256
142: claim table-reserved 0x0000000007fad000..0x0000000007faefff
143: free 0x00000001000f8000..0x00000001000f8000
"""),
    ("one frame is free, and the release is refused", PC,
     FULL.replace("0x4FB0000", "0x4FAE000") + reserves(1, 124, ABOVE) + "free 124\n", "script", """\
127: done
128: no gap for table reserved room 128
"""),
]


def numbered(report, text):
    """The lines of the report that have the same numbers as lines of the text."""
    numbers = {line.split(":")[0] for line in text.splitlines()}
    return "".join(line for line in report.splitlines(keepends=True) if line.split(":")[0] in numbers)


class Growth(Case):
    """Tables that grow, and tables that can't."""

    def test_stopped(self):
        for name, entries, line in STOPPED:
            words, files = machine_files(entries)
            got = run_over(files, ["--report", "map", *words, "zp"])
            self.check(name, got, (6, "", line + "\n"))

    def test_went_on(self):
        for name, entries, script, report, text in WENT_ON:
            words, files = machine_files(entries)
            files["script"] = script.encode()
            status, out, line = run_over(files, ["--script", "script", "--report", report, *words, "zp"])
            self.check(name, (status, out if report == "tables" else numbered(out, text), line), (0, text, ""))


if __name__ == "__main__":
    unittest.main()
