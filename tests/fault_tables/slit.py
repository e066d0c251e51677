"""Faults of the SLIT, in the order in which the program checks for them: too long, short, signature, length, checksum, localities."""
import struct

from support import sealed, unsealed

INPUT = "slit"
OPTION = "--slit"


def slit(count, cells, length=None, signature=b"SLIT"):
    """A table that states `count` localities and has these cells. It states its own length unless another one is given."""
    stated = 44 + len(cells) if length is None else length
    return sealed(signature + struct.pack("<IBB", stated, 1, 0) + bytes(26) + struct.pack("<Q", count) + bytes(cells))


ONE = slit(1, [10])
LONGEST = slit(1023, [10 if row == column else 20 for row in range(1023) for column in range(1023)])
TOO_LONG = slit(1024, [10 if row == column else 20 for row in range(1024) for column in range(1024)])

REFUSED = [
    ("more bytes than are allowed", TOO_LONG, "too long"),
    ("an empty file", b"", "short"),
    ("43 bytes", slit(0, [])[:43], "short"),
    ("another signature", slit(1, [10], signature=b"SRAT"), "signature"),
    ("the signature in small letters", slit(1, [10], signature=b"slit"), "signature"),
    ("a stated length one byte too small", slit(1, [10], length=44), "length"),
    ("a stated length one byte too great", slit(1, [10], length=46), "length"),
    ("a wrong checksum", unsealed(ONE), "checksum"),
    ("a cell too few", slit(2, [10, 20, 20]), "localities"),
    ("a cell too many", slit(2, [10, 20, 20, 10, 10]), "localities"),
    ("a cell without a locality", slit(0, [10]), "localities"),
    ("2^32 localities, the square of which is 2^64", slit(2**32, []), "localities"),
    ("localities whose square is 1 modulo 2^64, and one cell", slit(2**64 - 1, [10]), "localities"),
    # two faults
    ("too long, and another signature", slit(1, bytes(1048576), signature=b"SRAT"), "too long"),
    ("short, and another signature", b"SRAT", "short"),
    ("another signature, and a wrong length", slit(1, [10], length=44, signature=b"SRAT"), "signature"),
    ("a wrong length, and a wrong checksum", unsealed(slit(1, [10], length=44)), "length"),
    ("a wrong checksum, and a cell too few", unsealed(slit(2, [10, 20, 20])), "checksum"),
]

ACCEPTED = [
    ("no locality", slit(0, []), "zonelists", "slit no srat\nNode 0: 0/DMA32 0/DMA\n"),
    ("one locality", ONE, "zonelists", "slit no srat\nNode 0: 0/DMA32 0/DMA\n"),
    ("the greatest number of localities", LONGEST, "zonelists", "slit no srat\nNode 0: 0/DMA32 0/DMA\n"),
    ("distances that aren't used are not checked", slit(1, [0]), "zonelists", "slit no srat\nNode 0: 0/DMA32 0/DMA\n"),
]
