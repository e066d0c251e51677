"""Faults of the zero page, in the order in which the program checks for them: too long, wrong length, too few entries, too many entries,
an entry too far, the initrd too far."""
from support import LOW, MACHINE, MAIN, RAM, RESERVED, zero_page

INPUT = "zeropage"
OPTION = None

LAST = 2**64 - 1
FAR = (0x1000, 2**64 - 0x1000, RESERVED)
EMPTY = (0x100000, 0, RAM)
FAR_INITRD = {"loader": 1, "image": 2**64 - 0x2000, "size": 0x1001}

PAGE = zero_page(MACHINE)
NONE = zero_page(MACHINE, count=0)
MANY = zero_page(MACHINE, count=129)
FAR_PAGE = zero_page([LOW, FAR])
FAR_INITRD_PAGE = zero_page(MACHINE, **FAR_INITRD)

REFUSED = [
    # one fault
    ("a byte too many", PAGE + b"\0", "too long"),
    ("twice as long", PAGE + PAGE, "too long"),
    ("an empty file", b"", "wrong length"),
    ("a byte too few", PAGE[:4095], "wrong length"),
    ("no entry", NONE, "too few entries"),
    ("one entry", zero_page(MACHINE, count=1), "too few entries"),
    ("129 entries", MANY, "too many entries"),
    ("255 entries", zero_page(MACHINE, count=255), "too many entries"),
    ("the first entry ends a byte too far", zero_page([FAR, MAIN]), "entry 0 too far"),
    ("the second entry ends a byte too far", FAR_PAGE, "entry 1 too far"),
    ("a byte at the last address", zero_page([LOW, (LAST, 1, RESERVED)]), "entry 1 too far"),
    ("the greatest address and the greatest size", zero_page([LOW, (LAST, LAST, RESERVED)]), "entry 1 too far"),
    ("an entry of type 0 too far", zero_page([LOW, (0x1000, 2**64 - 0x1000, 0)]), "entry 1 too far"),
    ("the last of 128 entries too far", zero_page(MACHINE + [EMPTY] * 125 + [FAR]), "entry 127 too far"),
    ("the initrd ends a byte too far", FAR_INITRD_PAGE, "initrd too far"),
    ("an initrd whose address and size are the greatest", zero_page(MACHINE, 2, 255, LAST, LAST), "initrd too far"),
    ("an initrd too far only by the upper halves of its fields", zero_page(MACHINE, 2, 1, 1 << 32, 0xFFFFFFFF << 32), "initrd too far"),
    # two faults
    ("too long, and no entry", NONE + b"\0", "too long"),
    ("too long, and too many entries", MANY + b"\0", "too long"),
    ("too long, and an entry too far", FAR_PAGE + b"\0", "too long"),
    ("too long, and the initrd too far", FAR_INITRD_PAGE + b"\0", "too long"),
    ("too short, and no entry", NONE[:4095], "wrong length"),
    ("too short, and too many entries", MANY[:4095], "wrong length"),
    ("too short, and an entry too far", FAR_PAGE[:4095], "wrong length"),
    ("too short, and the initrd too far", FAR_INITRD_PAGE[:4095], "wrong length"),
    ("one entry, which is too far", zero_page([FAR], count=1), "too few entries"),
    ("no entry, and the initrd too far", zero_page([], **FAR_INITRD), "too few entries"),
    ("too many entries, and one too far", zero_page([LOW, FAR], count=129), "too many entries"),
    ("too many entries, and the initrd too far", zero_page(MACHINE, count=129, **FAR_INITRD), "too many entries"),
    ("two entries too far", zero_page([LOW, FAR, FAR]), "entry 1 too far"),
    ("an entry and the initrd too far", zero_page([LOW, FAR], **FAR_INITRD), "entry 1 too far"),
]

MAP = """\
0x0000000000000000..0x0000000000000fff 2 reserved
0x0000000000001000..0x000000000009fbff 1 usable
0x0000000000100000..0x0000000007fdffff 1 usable
"""
FIRST_CLAIMS = """\
1: claim kernel 0x0000000001000000..0x0000000002ffffff
2: claim low-64k 0x0000000000000000..0x000000000000ffff
"""
NO_INITRD = FIRST_CLAIMS + "3: limit 0x0000000000100000\n"
TO_THE_LAST_FRAME = FIRST_CLAIMS + "3: claim initrd 0xffffffffffffe000..0xffffffffffffefff\n"
BY_BOTH_HALVES = FIRST_CLAIMS + "3: claim initrd 0x0000000100000801..0x0000000200001fff\n"

ACCEPTED = [
    ("two entries", PAGE, "map", MAP),
    ("128 entries", zero_page(MACHINE + [EMPTY] * 126), "map", MAP),
    ("an entry that ends at the last possible address", zero_page(MACHINE + [(2**64 - 0x1000, 0xFFF, RESERVED)]), "map",
     MAP + "0xfffffffffffff000..0xfffffffffffffffe 2 reserved\n"),
    ("an empty entry at the last address", zero_page(MACHINE + [(LAST, 0, RESERVED)]), "map", MAP),
    ("an entry too far after the stated ones is ignored", zero_page(MACHINE + [FAR], count=2), "map", MAP),
    ("an initrd that ends in the last possible frame", zero_page(MACHINE, 2, 1, 2**64 - 0x2000, 0x1000), "journal", TO_THE_LAST_FRAME),
    ("an initrd with both halves of its fields", zero_page(MACHINE, 2, 1, 0x100000801, 0x1000007FF + 0x100), "journal", BY_BOTH_HALVES),
    ("an initrd too far, but no loader named", zero_page(MACHINE, 2, 0, LAST, LAST), "journal", NO_INITRD),
    ("an initrd at address 0", zero_page(MACHINE, 2, 1, 0, LAST), "journal", NO_INITRD),
    ("an initrd of size 0", zero_page(MACHINE, 2, 1, LAST, 0), "journal", NO_INITRD),
]
