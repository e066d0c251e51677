"""Faults of the E820 extension, in the order in which the program checks for them: too long, header, length, an entry too far."""
from support import RAM, RESERVED, extension

INPUT = "e820ext"
OPTION = "--e820ext"

FAR = (0x1000, 2**64 - 0x1000, RESERVED)
ABOVE = (0x8000000, 0x1000, RESERVED)
EMPTY = (0x8000000, 0, RAM)

REFUSED = [
    # one fault
    ("a byte too many", extension([EMPTY] * 3072) + b"\0", "too long"),
    ("an entry too many", extension([EMPTY] * 3073), "too long"),
    ("an empty file", b"", "header"),
    ("a header that lacks its last byte", extension([])[:15], "header"),
    ("type 0", extension([ABOVE], kind=0), "header"),
    ("type 2", extension([ABOVE], kind=2), "header"),
    ("a type whose low byte is 1", extension([ABOVE], kind=0x101), "header"),
    ("a stated length one byte too small", extension([ABOVE], length=19), "length"),
    ("a stated length one byte too great", extension([ABOVE], length=21), "length"),
    ("a stated length one entry too great", extension([ABOVE], length=40), "length"),
    ("a stated length one entry too small", extension([ABOVE, ABOVE], length=20), "length"),
    ("a stated length of 0 before an entry", extension([ABOVE], length=0), "length"),
    ("a stated length of which only the low bytes are right", extension([ABOVE], length=0x10014), "length"),
    ("an entry that lacks its last byte", extension([ABOVE], length=19)[:-1], "length"),
    ("an entry and one more byte", extension([ABOVE], length=21) + b"\0", "length"),
    ("the first entry ends a byte too far", extension([FAR, ABOVE]), "entry 0 too far"),
    ("the second entry ends a byte too far", extension([ABOVE, FAR]), "entry 1 too far"),
    ("the last of 3,072 entries too far", extension([EMPTY] * 3071 + [FAR]), "entry 3071 too far"),
    # two faults
    ("too long, and of type 2", extension([EMPTY] * 3073, kind=2), "too long"),
    ("too long, and of another length", extension([EMPTY] * 3073, length=0), "too long"),
    ("too long, and an entry too far", extension([FAR] + [EMPTY] * 3072), "too long"),
    ("type 2, and another length", extension([ABOVE], kind=2, length=19), "header"),
    ("type 2, and an entry too far", extension([FAR], kind=2), "header"),
    ("another length, and an entry too far", extension([FAR], length=40), "length"),
    ("an entry that lacks its last byte, after one too far", extension([FAR, ABOVE], length=39)[:-1], "length"),
    ("two entries too far", extension([ABOVE, FAR, FAR]), "entry 1 too far"),
]

MAP = """\
0x0000000000000000..0x0000000000000fff 2 reserved
0x0000000000001000..0x000000000009fbff 1 usable
0x0000000000100000..0x0000000007fdffff 1 usable
"""

ACCEPTED = [
    ("no entry", extension([]), "map", MAP),
    ("one entry", extension([ABOVE]), "map", MAP + "0x0000000008000000..0x0000000008000fff 2 reserved\n"),
    ("3,072 entries", extension([EMPTY] * 3071 + [ABOVE]), "map",
     MAP + "0x0000000008000000..0x0000000008000fff 2 reserved\n"),
    ("an entry that ends at the last possible address", extension([(2**64 - 0x1000, 0xFFF, RESERVED)]), "map",
     MAP + "0xfffffffffffff000..0xfffffffffffffffe 2 reserved\n"),
    ("a next node of setup_data is ignored", b"\xff" * 8 + extension([ABOVE])[8:], "map",
     MAP + "0x0000000008000000..0x0000000008000fff 2 reserved\n"),
]
