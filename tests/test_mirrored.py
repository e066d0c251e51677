"""Mirrored memory: ranges that begin or end inside a record or a frame, that cross a node's border, that lie outside memory or that overlap;
the ranges of an EFI memory map; the greatest number of ranges; and how both tables grow with mirrored memory and with --bottom-up.

The name of a case says what it shows. Its text is the whole report; for `journal` it may be only the lines with certain words.
"""
import unittest

from fault_tables.efi import MORE_RELIABLE, WB, descriptor, efi
from support import MACHINE, RAM, RESERVED, Case, machine_files, memory_of, run_over, srat

PC = MACHINE + [(0x7FE0000, 0x20000, RESERVED)]
# The same machine, with all entries that QEMU's firmware reports.
QEMU = [MACHINE[0], (0x9FC00, 0x400, RESERVED), (0xF0000, 0x10000, RESERVED), *PC[1:], (0xFFFC0000, 0x40000, RESERVED)]
FULL = [(0x0, 0xA0000, RAM), (0x100000, 0x7F00000, RAM)]
NODES = srat(memory_of(0, 0, 0x4000000), memory_of(1, 0x4000000, 0x4000000))


def services(*ranges):
    """An EFI memory map of boot services' data. A range is its first address, pages and attributes."""
    return efi(*(descriptor(4, base, pages, attributes) for base, pages, attributes in ranges))


TWICE = WB | MORE_RELIABLE
EFI = services((0x4000800, 2, TWICE), (0x5000800, 1, TWICE), (0x6000000, 16, WB), (0x7000000, 16, TWICE))
EFI_16_MIB = services((0x4000000, 4096, TWICE))


def high(count):
    """Single pages of RAM, one page apart."""
    return [(0x10000000 + place * 0x2000, 0x1000, RAM) for place in range(1, count + 1)]


# A script that reserves single bytes that don't touch, enough of them to make the reserved table grow.
RESERVES = "sections\n" + "".join(f"reserve {number} 0x{0x5000000 + number * 0x2000:x} 1\n" for number in range(1, 140))

LOWEST = "   0: 0x0000000000001000..0x000000000009efff\n"

# name, entries, words, script, report, words of the journal's lines, text
CASES = [
    ("inside a record, and only whole frames count", PC, ["--mirror", "0x4000800,0x1001000"], "", "memory", None, LOWEST + """\
   1: 0x0000000000100000..0x0000000004000fff
   2: 0x0000000004001000..0x0000000005000fff
   3: 0x0000000005001000..0x0000000007fdffff
"""),
    ("outside memory", PC, ["--mirror", "0x100000000,0x1000000"], "", "memory", None, LOWEST + """\
   1: 0x0000000000100000..0x0000000007fdffff
"""),
    ("a range without memory is in the journal all the same", PC, ["--mirror", "0x100000000,0x1000000"], "", "journal", "mirror", """\
7: mirror 0x0000000100000000..0x0000000100ffffff
"""),
    ("two ranges over the same bytes", PC, ["--mirror", "64M,16M:72M,16M"], "", "memory", None, LOWEST + """\
   1: 0x0000000000100000..0x0000000003ffffff
   2: 0x0000000004000000..0x00000000057fffff
   3: 0x0000000005800000..0x0000000007fdffff
"""),
    ("a range without a whole frame", PC, ["--mirror", "0x4000800,0x1000"], "", "memory", None, LOWEST + """\
   1: 0x0000000000100000..0x0000000007fdffff
"""),
    ("a range without a whole frame isn't in the journal", PC, ["--mirror", "0x4000800,0x1000:64M,4K"], "", "journal", "mirror", """\
7: mirror 0x0000000004000000..0x0000000004000fff
"""),
    ("across a node's border", PC, ["--mirror", "48M,32M", "--srat", "srat"], "", "memory", None, LOWEST + """\
   1: 0x0000000000100000..0x0000000002ffffff
   2: 0x0000000003000000..0x0000000003ffffff
   3: 0x0000000004000000..0x0000000004ffffff
   4: 0x0000000005000000..0x0000000007fdffff
"""),
    ("ranges of an EFI map, only whole frames, come after those of --mirror", PC, ["--mirror", "96M,16M", "--efi", "efi"], "", "journal",
     "mirror", """\
7: mirror 0x0000000006000000..0x0000000006ffffff
8: mirror 0x0000000004001000..0x0000000004001fff
9: mirror 0x0000000007000000..0x000000000700ffff
"""),
    ("ranges of an EFI map count without add_efi_memmap", QEMU, ["--efi", "efi-16m"], "", "journal", None, """\
1: claim kernel 0x0000000001000000..0x0000000002ffffff
2: claim low-64k 0x0000000000000000..0x000000000000ffff
3: limit 0x0000000000100000
4: mem 0x0000000000001000..0x000000000009fbff
5: mem 0x0000000000100000..0x0000000007fdffff
6: trim
7: mirror 0x0000000004000000..0x0000000004ffffff
8: limit 0x0000000007fe0000
9: claim low-1m 0x0000000000000000..0x00000000000fffff
10: node 0 0x0000000000000000..0x0000000007fdffff
11: claim node-data 0 0x0000000004fd5000..0x0000000004ffffff
12: claim roots 0x0000000004fd1000..0x0000000004fd4fff
13: claim root 0 0x0000000004fd0000..0x0000000004fd0fff
14: claim usage 0 0x0000000004fcffc0..0x0000000004fcffe7
15: claim map 0 0x0000000004c00000..0x0000000004dfffff
"""),
    ("and the map then stays as it is", QEMU, ["--efi", "efi-16m"], "", "map", None, """\
0x0000000000000000..0x0000000000000fff 2 reserved
0x0000000000001000..0x000000000009fbff 1 usable
0x000000000009fc00..0x000000000009ffff 2 reserved
0x00000000000f0000..0x00000000000fffff 2 reserved
0x0000000000100000..0x0000000007fdffff 1 usable
0x0000000007fe0000..0x0000000007ffffff 2 reserved
0x00000000fffc0000..0x00000000ffffffff 2 reserved
"""),
    ("the memory table grows into mirrored memory", FULL + high(127), ["--mirror", "0x90000,0x8000"], "", "tables", None, """\
memory place 0x000000000009e000 room 256 records 131
reserved place 0x0000000002fff000 room 128 records 6
"""),
    ("a mirrored range makes the memory table grow", FULL + high(126), ["--mirror", "64M,16M"], "", "journal", "grown mirror", """\
134: grown memory 0x000000000009e000 room 256
135: mirror 0x0000000004000000..0x0000000004ffffff
"""),
    ("the reserved table grows where memory is mirrored", PC, ["--mirror", "64M,16M"], RESERVES, "tables", None, """\
memory place 0x0000000002ffe000 room 128 records 4
reserved place 0x0000000007fde000 room 256 records 145
"""),
    ("the memory table grows with --bottom-up", FULL + high(127), ["--bottom-up"], "", "tables", None, """\
memory place 0x0000000000010000 room 256 records 129
reserved place 0x0000000002fff000 room 128 records 2
"""),
    ("the reserved table grows with --bottom-up", PC, ["--bottom-up"], RESERVES, "tables", None, """\
memory place 0x0000000002ffe000 room 128 records 2
reserved place 0x00000000050ff000 room 256 records 141
"""),
]


def with_words(text, wanted):
    """The lines whose second word is one of the words `wanted`; all lines if it is None."""
    if wanted is None:
        return text
    return "".join(line for line in text.splitlines(keepends=True) if line.split()[1] in wanted.split())


class Mirrored(Case):
    """Mirrored memory."""

    def test_told(self):
        for name, entries, words, script, report, lines, text in CASES:
            more, files = machine_files(entries)
            files["script"] = script.encode()
            if "--srat" in words:
                files["srat"] = NODES
            if "--efi" in words:
                files |= {"efi": EFI, "efi-16m": EFI_16_MIB}
            status, out, line = run_over(files, ["--report", report, "--script", "script", *words, *more, "zp"])
            self.check(name, (status, with_words(out, lines), line), (0, text, ""))

    def test_many(self):
        """--mirror takes at most 64 ranges, each of which is two sizes."""
        _, files = machine_files(PC)
        for name, value, status, line in (
                ("64 ranges", ":".join(["4K,4K"] * 64), 0, ""),
                ("65 ranges", ":".join(["4K,4K"] * 65), 2, "bootmem: usage\n"),
                ("a range that ends at 2^64 - 1", "0xffffffffffffe000,0x1fff", 0, ""),
                ("a range that ends one byte further", "0xffffffffffffe000,0x2000", 2, "bootmem: usage\n"),
                ("no range", "", 2, "bootmem: usage\n"),
                ("an empty range at the end", "4K,4K:", 2, "bootmem: usage\n"),
                ("no size", "4K", 2, "bootmem: usage\n")):
            got = run_over(files, ["--report", "map", f"--mirror={value}", "zp"])
            self.check(name, (got[0], got[2]), (status, line))


if __name__ == "__main__":
    unittest.main()
