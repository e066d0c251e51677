"""Faults of the EFI memory map, in the order in which the program checks for them: too long, header, length, and a descriptor too far (the
first one is reported); and how its descriptors change the map of an accepted boot."""
import struct

from support import RAM, RESERVED

INPUT = "efi"
OPTION = "--efi"
BESIDE = {"--cmdline": b"add_efi_memmap"}

WB, MORE_RELIABLE, SP = 0x8, 0x10000, 0x40000


def descriptor(kind, base, pages, attributes=WB, stride=48):
    """A descriptor. All bits are set in the fields that the program doesn't read."""
    return struct.pack("<IIQQQQ", kind, 2**32 - 1, base, 2**64 - 1, pages, attributes) + b"\xff" * (stride - 40)


def efi(*descriptors, stride=48, version=1):
    return struct.pack("<II", stride, version) + b"".join(descriptors)


FAR = descriptor(7, 2**64 - 0x1000, 1)
NEAR = descriptor(0, 2**64 - 0x1000, 0)
LONGEST = efi(*[descriptor(7, 0x200000, 1, stride=40)] * 26214, stride=40)

REFUSED = [
    # one fault
    ("the shortest file that is too long", LONGEST + bytes(9), "too long"),
    ("an empty file", b"", "header"),
    ("seven bytes", efi()[:7], "header"),
    ("descriptors of 32 bytes", efi(stride=32), "header"),
    ("descriptors of 39 bytes", efi(stride=39), "header"),
    ("descriptors of 44 bytes", efi(stride=44), "header"),
    ("descriptors of 0 bytes", efi(stride=0), "header"),
    ("version 0", efi(version=0), "header"),
    ("version 2", efi(version=2), "header"),
    ("a byte after the descriptors", efi(NEAR) + b"\0", "length"),
    ("a single byte of a descriptor", efi() + b"\0", "length"),
    ("a descriptor that lacks its last byte", efi(NEAR)[:-1], "length"),
    ("a descriptor that ends a byte too far", efi(FAR), "descriptor 0 too far"),
    ("the fewest pages at address 0 that end too far", efi(descriptor(7, 0, 2**52)), "descriptor 0 too far"),
    ("the greatest number of pages", efi(descriptor(7, 0, 2**64 - 1)), "descriptor 0 too far"),
    ("one page at the greatest address", efi(descriptor(7, 2**64 - 1, 1)), "descriptor 0 too far"),
    ("reserved memory too far", efi(descriptor(0, 2**64 - 0x1000, 1, 0)), "descriptor 0 too far"),
    ("the second descriptor too far", efi(NEAR, FAR), "descriptor 1 too far"),
    # two faults
    ("too long, and of version 2", b"\x28\0\0\0\2" + LONGEST[5:] + bytes(9), "too long"),
    ("too long, and of another length", LONGEST + bytes(10), "too long"),
    ("too long, and a descriptor too far", LONGEST[:8] + descriptor(7, 2**64 - 0x1000, 1, stride=40) + LONGEST[48:] + bytes(9), "too long"),
    ("version 2, and a byte after the descriptors", efi(NEAR, version=2) + b"\0", "header"),
    ("version 2, and a descriptor too far", efi(FAR, version=2), "header"),
    ("a byte after a descriptor too far", efi(FAR) + b"\0", "length"),
    ("two descriptors too far", efi(NEAR, FAR, FAR), "descriptor 1 too far"),
]

PLAIN = """\
0x0000000000000000..0x0000000000000fff 2 reserved
0x0000000000001000..0x000000000009fbff 1 usable
0x0000000000100000..0x0000000007fdffff 1 usable
"""
# Adjoining descriptors from 2 MiB on: type, attributes and pages of each. MADE is the resulting map.
KINDS = [(9, WB, 16), (7, 0, 1), (4, SP | WB, 2), (8, WB, 1), (10, 0, 1), (14, WB, 1), (5, WB, 1), (15, WB, 1), (2**32 - 1, SP, 1)]
MADE = """\
0x0000000000000000..0x0000000000000fff 2 reserved
0x0000000000001000..0x000000000009fbff 1 usable
0x0000000000100000..0x00000000001fffff 1 usable
0x0000000000200000..0x000000000020ffff 3 ACPI data
0x0000000000210000..0x0000000000210fff 2 reserved
0x0000000000211000..0x0000000000212fff 4026531839 soft reserved
0x0000000000213000..0x0000000000213fff 5 unusable
0x0000000000214000..0x0000000000214fff 4 ACPI NVS
0x0000000000215000..0x0000000000215fff 7 persistent
0x0000000000216000..0x0000000000218fff 2 reserved
0x0000000000219000..0x0000000007fdffff 1 usable
"""


def in_a_row(kinds):
    """Adjoining descriptors from 2 MiB on: each begins where the one before it ends."""
    base = 0x200000
    for kind, attributes, pages in kinds:
        yield descriptor(kind, base, pages, attributes)
        base += 0x1000 * pages


# The zero page of a machine whose two entries overlap, and its map once EFI's has been added.
TWO_ENTRIES = [(0x100000, 0x7F00000, RAM), (0x7FE0000, 0x20000, RESERVED)]
ADDED = """\
0x0000000000100000..0x00000000001fffff 1 usable
0x0000000000200000..0x000000000020ffff 3 ACPI data
0x0000000000210000..0x00000000002fffff 1 usable
0x0000000000300000..0x0000000000300fff 2 reserved
0x0000000000301000..0x0000000007fdffff 1 usable
0x0000000007fe0000..0x0000000007ffffff 2 reserved
"""


# What a descriptor of each type (EFI_MEMORY_TYPE) becomes in the map, with each of these attributes; other types are reserved.
ATTRIBUTES = [SP, SP | WB, WB, 0]
FREE = ["4026531839 soft reserved", "4026531839 soft reserved", "1 usable", "2 reserved"]
OF_TYPE = {1: FREE, 2: FREE, 3: FREE, 4: FREE, 7: FREE, 8: ["5 unusable"] * 4, 9: ["3 ACPI data"] * 4, 10: ["4 ACPI NVS"] * 4,
           14: ["7 persistent"] * 4}


def each_type():
    """One case for each type and attribute: a descriptor of one page at 4 GiB, and its line in the map."""
    for kind in [*range(16), 2**32 - 1]:
        for attributes, made in zip(ATTRIBUTES, OF_TYPE.get(kind, ["2 reserved"] * 4)):
            yield (f"type {kind}, attributes {attributes:#x}", efi(descriptor(kind, 0x100000000, 1, attributes)), "map",
                   f"{PLAIN}0x0000000100000000..0x0000000100000fff {made}\n")


ACCEPTED = [
    ("no descriptor", efi(), "map", PLAIN),
    ("no descriptor, of 40 bytes each", efi(stride=40), "map", PLAIN),
    ("the longest map", LONGEST, "map", PLAIN),
    ("descriptors of 4,096 bytes", efi(descriptor(9, 0, 0, stride=4096), stride=4096), "map", PLAIN),
    ("no page at the last address", efi(descriptor(9, 2**64 - 1, 0)), "map", PLAIN),
    ("a descriptor that ends at the last possible address", efi(descriptor(9, 2**64 - 0x1001, 1)), "map",
     PLAIN + "0xffffffffffffefff..0xfffffffffffffffe 3 ACPI data\n"),
    ("a descriptor of each kind", efi(*in_a_row(KINDS)), "map", MADE),
    *each_type(),
    ("ACPI's tables, and memory that can't be cached", efi(descriptor(9, 0x200000, 16), descriptor(7, 0x300000, 1, 0)), "map", ADDED, TWO_ENTRIES),
]
