"""Faults of the early script. The program reports the lowest faulty line, and its first fault in this order: form, number, alignment,
zero size, second sections, too far."""

from support import encoded, rows_of

INPUT = "script"
OPTION = "--script"

BAD_FORMS = [
    "allocate 1 4K 4K", "Free 1", "FREE 1", "x", "0", "mem=64M", "free#", "\x00", "free\x0b1", "free\x0c1", "free\xa01", "'free' 1",
    "alloc", "alloc 1", "alloc 1 4K", "alloc 1 4K 4K 4K", "alloc 1 4K 4K min", "alloc 1 4K 4K max", "alloc 1 4K 4K node",
    "alloc 1 4K 4K exact", "alloc 1 4K 4K node 0 exact exact", "alloc 1 4K 4K exact node 0",
    "alloc 1 4K 4K max 1M min 0", "alloc 1 4K 4K node 0 min 0", "alloc 1 4K 4K node 0 max 1M", "alloc 1 4K 4K min 0 min 0",
    "alloc 1 4K 4K max 1M max 1M", "alloc 1 4K 4K node 0 node 0", "alloc 1 4K 4K min 0 exact", "alloc 1 4K 4K node 0 exact 1",
    "alloc 1 4K 4K # page", "reserve", "reserve 1", "reserve 1 1M", "reserve 1 1M 4K 4K", "free", "free 1 2", "trim", "trim 1",
    "trim 1 4K 4K", "fill", "fill 1", "fill 1 2 3", "peek", "peek 0", "peek 0 1 1", "sections 1", "sections sections",
]
BAD_NUMBERS = [
    "free x", "free -1", "free 1x", "free 1KK", "free 0x", "free 08", "free 0b1", "free 1,", "free 16E", "free 18446744073709551616",
    "free 4294967296", "free 4G", "alloc 4294967296 4K 4K", "alloc x 4K 4K", "alloc 1 x 4K", "alloc 1 16E 4K",
    "alloc 1 4K x", "alloc 1 4K 16E", "alloc 1 4K 4K min x", "alloc 1 4K 4K min 16E", "alloc 1 4K 4K max x", "alloc 1 4K 4K max 16E",
    "alloc 1 4K 4K node x",
    "alloc 1 4K 4K node 1024", "alloc 1 4K 4K node exact",
    "alloc 1 4K 4K node 1K exact", "reserve 4294967296 1M 4K", "reserve x 1M 4K", "reserve 1 x 4K",
    "reserve 1 16E 4K", "reserve 1 1M x", "reserve 1 1M 16E", "trim 4294967296 4K", "trim x 4K", "trim 1 x", "trim 1 16E",
    "fill 4294967296 0", "fill x 0", "fill 1 x", "fill 1 256", "fill 1 1K", "peek x 1", "peek 16E 1", "peek 0 x", "peek 0 65", "peek 0 1K",
]
BAD_ALIGNMENTS = [
    "alloc 1 4K 0", "alloc 1 4K 3", "alloc 1 4K 4095", "alloc 1 4K 4097", "alloc 1 4K 0xffffffffffffffff", "alloc 1 4K 0x8000000000000001",
    "alloc 1 4K 3K min 1M max 2M node 0 exact",
]
ZERO_SIZES = ["alloc 1 0 4K", "alloc 1 0x0 1", "reserve 1 1M 0", "reserve 1 0 0", "trim 1 0", "trim 1 0K", "peek 0 0", "peek 1M 00"]
TOO_FAR = [
    "reserve 1 0xffffffffffffffff 1", "reserve 1 1 0xffffffffffffffff", "reserve 1 8E 8E",
    "reserve 1 0xffffffffffffffff 0xffffffffffffffff",
    "reserve 1 0xfffffffffffff000 4K", "peek 0xffffffffffffffff 1", "peek 0xffffffffffffffc0 64",
]

# Name, a line with two faults, and the fault that the program reports.
ON_ONE_LINE = rows_of(r"""
malformed, and a wrong number | free x 1 | form
malformed, and a wrong alignment | alloc 1 4K 3 exact | form
malformed, and a zero size | trim 1 0 0 | form
malformed, and too far | reserve 1 0xffffffffffffffff 1 1 | form
a wrong number, and a wrong alignment | alloc x 4K 3 | number
a wrong number after a wrong alignment | alloc 1 4K 3 node 1024 | number
a wrong number after a zero size | alloc 1 0 4K max x | number
a wrong number, and a zero size | trim x 0 | number
a wrong number, and a zero length | peek x 0 | number
a wrong number, and too far | reserve x 0xffffffffffffffff 1 | number
a length above its bound, and too far | peek 0xffffffffffffffff 65 | number
a wrong alignment, and a zero size | alloc 1 0 3 | alignment
an alignment of 0, and a zero size | alloc 1 0 0 | alignment
""")
OVER_LINES = rows_of(r"""
a fault in the second line | free 1\nfree\n | line 2: form
a fault in a last line without a newline | free 1\nfree | line 2: form
comments and empty lines count | # free\n\n \t\r\n#\nfree 1\n\nfree | line 7: form
a comment after other words | free 1 # x | line 1: form
a second line `sections` | sections\nsections | line 2: second sections
a third line `sections` | sections\n\nsections\nsections\n | line 3: second sections
a second `sections` that is malformed | sections\nsections 1 | line 2: form
a wrong number before a malformed line | free x\nfree | line 1: number
a malformed line before a wrong number | free\nfree x | line 1: form
a wrong alignment before a wrong number | alloc 1 4K 3\nfree x | line 1: alignment
a zero size before a wrong alignment | trim 1 0\nalloc 1 4K 3 | line 1: zero size
a second `sections` before a zero size | sections\nsections\ntrim 1 0 | line 2: second sections
a zero size before a second `sections` | sections\ntrim 1 0\nsections | line 2: zero size
too far before a second `sections` | sections\nreserve 1 8E 8E\nsections | line 2: too far
too far before a malformed line | peek 0xffffffffffffffff 1\nfree | line 1: too far
a second `sections` before too far | sections\nsections\nreserve 1 8E 8E | line 2: second sections
""") + [
    ("the shortest file that is too long", "free 1\n#".ljust(2**20 + 1, "-"), "too long"),
    ("a file too long, with a malformed line", "free\n".ljust(2**20 + 1), "too long"),
    ("a file too long, with a wrong number", "free x\n".ljust(2**20 + 1), "too long"),
]


def alone(lines, fault):
    return [(repr(line), line, f"line 1: {fault}") for line in lines]


REFUSED = encoded(
    alone(BAD_FORMS, "form") + alone(BAD_NUMBERS, "number") + alone(BAD_ALIGNMENTS, "alignment") + alone(ZERO_SIZES, "zero size")
    + alone(TOO_FAR, "too far") + [(name, line, f"line 1: {fault}") for name, line, fault in ON_ONE_LINE] + OVER_LINES)

# Name, script, and the report `script` for it.
CAME = [
    ("an empty file", "", ""),
    ("comments and empty lines", "#\n# x\n \t\r\n\n#free\n", ""),
    ("blanks, tabs and carriage returns", " \t free\r1 \r\n", "1: unknown\n"),
    ("the greatest ID", "free 4294967295", "1: unknown\n"),
    ("an ID with a suffix", "free 1k", "1: unknown\n"),
    ("an ID in octal", "reserve 010 4G 1\nfree 8", "1: done\n2: done\n"),
    ("the greatest size", "alloc 1 0xffffffffffffffff 1", "1: no gap\n"),
    ("the least size and alignment", "alloc 1 1 1 max 0x1001", "1: no gap\n"),
    ("the greatest alignment", "alloc 1 1 0x8000000000000000", "1: no gap\n"),
    ("the greatest node", "alloc 1 1 1 node 1023 exact", "1: no gap\n"),
    ("the greatest minimum and maximum", "alloc 1 15E 1 min 0xffffffffffffffff max 0xffffffffffffffff", "1: no gap\n"),
    ("the greatest byte", "fill 1 255", "1: unknown\n"),
    ("the least KEEP", "trim 1 1", "1: unknown\n"),
    ("a range that ends at the last possible address", "reserve 1 0xfffffffffffff000 0xfff", "1: done\n"),
    ("the greatest length", "peek 4G 64", "1: bytes " + "00" * 64 + "\n"),
    ("bytes that end at the last possible address", "peek 0xffffffffffffffbf 64", "1: bytes " + "00" * 64 + "\n"),
    ("one line `sections`", "free 1\nsections\nfree 1", "1: unknown\n3: unknown\n"),
    ("the longest file", "free 1\n#".ljust(2**20, "-"), "1: unknown\n"),
]

ACCEPTED = [(name, text, "script", came) for name, text, came in encoded(CAME)]
