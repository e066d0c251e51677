"""Faults of the SRAT, in the order in which the program checks for them: too long, short, signature, length, checksum; then, entry by
entry, the entry's length and a range too far."""
import struct

from support import memory_of, sealed, srat, unsealed

INPUT = "srat"
OPTION = "--srat"

FAR_BASE, FAR_SIZE = 2**64 - 0x1000, 0x1000
FAR = memory_of(0, FAR_BASE, FAR_SIZE)
NEAR = memory_of(0, FAR_BASE, FAR_SIZE - 1)
SHORTER = memory_of(0, 0, 0x1000, length=39)


def other(length, stated=None):
    """An entry of a type that the program ignores."""
    return bytes([9, length if stated is None else stated]) + bytes(length - 2)


def signed(table, signature):
    return sealed(signature + table[4:])


EMPTY = srat()
LONGEST = srat(*[other(254)] * 4128, other(16))

REFUSED = [
    # one fault
    ("the shortest table that is too long", srat(*[other(254)] * 4128, other(17)), "too long"),
    ("an empty file", b"", "short"),
    ("a header that lacks its last byte", srat(length=47)[:47], "short"),
    ("another signature", signed(EMPTY, b"SLIT"), "signature"),
    ("a signature in small letters", signed(EMPTY, b"srat"), "signature"),
    ("a stated length one byte too small", srat(length=47), "length"),
    ("a stated length one byte too great", srat(length=49), "length"),
    ("a stated length of which only the low bytes are right", srat(length=0x10030), "length"),
    ("bytes that sum to 1", unsealed(EMPTY), "checksum"),
    ("one byte alone", srat(b"\x09"), "entry length at 48"),
    ("one byte alone after an entry", srat(other(2), b"\x09"), "entry length at 50"),
    ("an entry of 0 bytes", srat(other(8, stated=0)), "entry length at 48"),
    ("an entry of one byte", srat(other(8, stated=1)), "entry length at 48"),
    ("an entry that ends one byte past the table", srat(other(8, stated=9)), "entry length at 48"),
    ("a second entry that ends past the table", srat(other(8), other(8, stated=255)), "entry length at 56"),
    ("a processor of 15 bytes", srat(b"\0\x0f" + bytes(13)), "entry length at 48"),
    ("a processor of 17 bytes", srat(b"\0\x11" + bytes(15)), "entry length at 48"),
    ("a processor of 24 bytes", srat(b"\0\x18" + bytes(22)), "entry length at 48"),
    ("a range of 39 bytes", srat(SHORTER[:39]), "entry length at 48"),
    ("a range of 41 bytes", srat(memory_of(0, 0, 0x1000, length=41) + b"\0"), "entry length at 48"),
    ("a range of 41 bytes that isn't enabled", srat(memory_of(0, 0, 0, 0, length=41) + b"\0"), "entry length at 48"),
    ("an x2APIC processor of 23 bytes", srat(b"\2\x17" + bytes(21)), "entry length at 48"),
    ("an x2APIC processor of 25 bytes", srat(b"\2\x19" + bytes(23)), "entry length at 48"),
    ("an x2APIC processor of 16 bytes", srat(b"\2\x10" + bytes(14)), "entry length at 48"),
    ("a range that ends a byte too far", srat(FAR), "block too far at 48"),
    ("a byte at the last address", srat(memory_of(0, 2**64 - 1, 1)), "block too far at 48"),
    ("the greatest base and the greatest length", srat(memory_of(0, 2**64 - 1, 2**64 - 1)), "block too far at 48"),
    ("a second range too far", srat(NEAR, FAR), "block too far at 88"),
    ("a range too far whose other flags are set", srat(memory_of(0, FAR_BASE, FAR_SIZE, 0xFFFFFFFF)), "block too far at 48"),
    # two faults
    ("too long, and another signature", signed(LONGEST + b"\0", b"SLIT"), "too long"),
    ("too long, and a wrong length", LONGEST + b"\0", "too long"),
    ("47 bytes of another signature", signed(EMPTY, b"SLIT")[:47], "short"),
    ("47 bytes that state a wrong length", EMPTY[:47], "short"),
    ("another signature and a wrong length", signed(srat(length=47), b"SLIT"), "signature"),
    ("another signature and a wrong checksum", unsealed(signed(EMPTY, b"SLIT")), "signature"),
    ("a wrong length and a wrong checksum", unsealed(srat(length=47)), "length"),
    ("a wrong length and a wrong entry", srat(other(8, stated=0), length=57), "length"),
    ("a wrong checksum and a wrong entry", unsealed(srat(other(8, stated=0))), "checksum"),
    ("a wrong checksum and a range too far", unsealed(srat(FAR)), "checksum"),
    ("a wrong entry before a range too far", srat(other(8, stated=1), FAR), "entry length at 48"),
    ("a range too far before a wrong entry", srat(FAR, other(8, stated=1)), "block too far at 48"),
    ("a range too far before one byte alone", srat(FAR, b"\x09"), "block too far at 48"),
    ("a range of 39 bytes too far", srat(memory_of(0, FAR_BASE, FAR_SIZE, length=39)), "entry length at 48"),
    ("a range of 41 bytes too far", srat(memory_of(0, FAR_BASE, FAR_SIZE, length=41) + b"\0"), "entry length at 48"),
    ("a range too far, cut off by the end of the table", srat(FAR[:39]), "entry length at 48"),
    ("two wrong entries", srat(other(8), other(8, stated=0), other(8, stated=1)), "entry length at 56"),
    ("two ranges too far", srat(NEAR, FAR, FAR), "block too far at 88"),
]

NO_BLOCKS = """\
numa no blocks
uncovered 0
node 0 0x0000000000000000..0x0000000007fdffff
"""
APIC = b"\0\x10" + bytes(14)
X2APIC = b"\2\x18" + struct.pack("<HIII", 0, 0, 0, 1) + bytes(8)

ACCEPTED = [
    ("no entry", EMPTY, "nodes", NO_BLOCKS),
    ("no entry, of revision 255", srat(revision=255), "nodes", NO_BLOCKS),
    ("the longest table", LONGEST, "nodes", NO_BLOCKS),
    ("an entry of two bytes", srat(other(2)), "nodes", NO_BLOCKS),
    ("an entry of 255 bytes", srat(other(255)), "nodes", NO_BLOCKS),
    ("an entry of each kind", srat(APIC, NEAR, X2APIC), "nodes", NO_BLOCKS),
    ("a range that ends at the last possible address", srat(NEAR), "nodes", NO_BLOCKS),
    ("an empty range at the last address", srat(memory_of(0, 2**64 - 1, 0)), "nodes", NO_BLOCKS),
    ("a range too far that isn't enabled", srat(memory_of(0, FAR_BASE, FAR_SIZE, 0)), "nodes", NO_BLOCKS),
    ("a range too far with another flag", srat(memory_of(0, FAR_BASE, FAR_SIZE, 0xFFFFFFFE)), "nodes", NO_BLOCKS),
]
