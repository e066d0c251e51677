"""Every point at which a boot stops for lack of memory, except the growth of the two tables (test_growth.py). Next to each machine that
stops is one with just enough memory to reach the next stage, with and without --la57. Also the largest memory that a boot accepts, and
the bytes of a table as the script sees them.

The boot claims all of the first MiB. Above it a machine needs 172 KiB of node data; a table of roots, which takes 16 KiB, or 1 MiB with
addresses of 52 bits; a frame for the roots of section 0; a frame for its usage, which takes 40 bytes; and 2 MiB for its map, at a multiple
of 2 MiB.

The name of a case says what it shows.
"""
import unittest

from support import MACHINE, RAM, RESERVED, Case, machine_files, run_over

ACPI = 3
LOW = (0x0, 0xA0000, RAM)
WIDE = ["--la57"]
PC = [MACHINE[0], (0x9FC00, 0x400, RESERVED), MACHINE[1], (0x7FE0000, 0x20000, RESERVED)]


def above(size):
    """The lowest 640 KiB of memory, and `size` bytes from 1 MiB on."""
    return [LOW, (0x100000, size, RAM)]


def single(count):
    """256 MiB of memory in which `count` single frames are reserved, no two of them adjoining."""
    return [(0x100000, 0x10000000, RAM)] + [(0x100000 + place * 0x2000, 0x1000, RESERVED) for place in range(1, count + 1)]


# name, entries, words, the text after `stopped: `
STOPPED = [
    ("no memory", [(0x0, 0x1000, RESERVED), (0x100000, 0x1000, RESERVED)], [], "no usable frame"),
    ("only the first frame", [(0x0, 0x1000, RAM), (0x100000, 0x1000, RESERVED)], [], "no usable frame"),
    ("more frames than 2^32 less 256", above(0x100000000000), [], "4294967455 usable frames"),
    ("more frames than 2^32 less 256, with --la57", above(0x100000000000), WIDE, "4294967455 usable frames"),
    ("3,201 runs", single(1600), [], "3201 map runs"),
    ("6,399 runs", single(3199), [], "6399 map runs"),
    ("640 KiB", [LOW, (0x100000, 0x1000, RESERVED)], [], "no place for node-data 0"),
    ("one frame too few for node data", above(0x2A000), [], "no place for node-data 0"),
    ("just enough for node data", above(0x2B000), [], "no place for roots"),
    ("one frame too few for the roots", above(0x2E000), [], "no place for roots"),
    ("just enough for the roots", above(0x2F000), [], "no place for root 0"),
    ("one frame too few for the roots, with --la57", above(0x12A000), WIDE, "no place for roots"),
    ("just enough for the roots, with --la57", above(0x12B000), WIDE, "no place for root 0"),
    ("just enough for the first root", above(0x30000), [], "no place for usage 0"),
    ("just enough for the first root, with --la57", above(0x12C000), WIDE, "no place for usage 0"),
    ("just enough for the usage", above(0x31000), [], "no place for map 0"),
    ("just enough for the usage, with --la57", above(0x12D000), WIDE, "no place for map 0"),
    ("2 MiB at no multiple of 2 MiB", above(0x231000), [], "no place for map 0"),
    ("ACPI's tables over half of 1 MiB", [(0x100000, 0x80000, ACPI), (0x0, 0x200000, RAM)], [], "no place for map 0"),
]

# Refusals that a script can meet; and the bytes of a claim that begins in another claim's frame, and of a record of the table.
REFUSALS = """\
reserve 1 0x2fff000 0x10
alloc 2 0x1000 0x1000
reserve 3 0x7fb4800 0x10
free 2
fill 3 0xab
peek 0x7fb47fe 4
peek 0x2ffe000 24
free 9
trim 3 16
alloc 3 1 1
"""

WENT_ON = [
    ("2 MiB at a multiple of 2 MiB", above(0x331000), "", "summary", """\
runs 3
usable 976
free 256
memory records 2 room 128
reserved records 5 room 128
blocks 1
"""),
    ("16 TiB", above(0x100000000000 - 0x100000), "", "summary", """\
runs 3
usable 4294967199
free 4227848145
memory records 2 room 128
reserved records 4 room 128
blocks 4128763
"""),
    ("the bytes of the first memory record, and zeros after the last one", PC, "peek 0x2ffe000 24\npeek 0x2ffe030 24\n", "script", f"""\
1: bytes 001000000000000000e00900000000000000000000000000
2: bytes {"00" * 24}
"""),
    ("refusals of the script, and bytes", PC, REFUSALS, "script", """\
1: table in use
2: at 0x0000000007fb4000
3: done
4: not whole
5: done
6: bytes 0000abab
7: bytes 001000000000000000e00900000000000000000000000000
8: unknown
9: keep too large
10: taken
"""),
    ("a table's old place has only zeros",
     [(0x0, 0x9F000, RAM), MACHINE[1], *((0x8000000 + place * 0x2000, 0x1000, RAM) for place in range(1, 254))],
     "sections\n" + "".join(f"peek 0x{0x9d000 + 64 * place:x} 64\n" for place in range(96)), "script",
     "".join(f"{place + 2}: bytes {'00' * 64}\n" for place in range(96))),
]


class Stops(Case):
    """Boots that stop, and boots with just enough memory to go on."""

    def test_stopped(self):
        for name, entries, extra, line in STOPPED:
            words, files = machine_files(entries)
            got = run_over(files, ["--report", "map", *extra, *words, "zp"])
            self.check(name, got, (6, "", f"bootmem: stopped: {line}\n"))

    def test_went_on(self):
        for name, entries, script, report, text in WENT_ON:
            words, files = machine_files(entries)
            files["script"] = script.encode()
            got = run_over(files, ["--script", "script", "--report", report, *words, "zp"])
            self.check(name, got, (0, text, ""))


if __name__ == "__main__":
    unittest.main()
