"""Makes inputs of bootmem as bytes: zero page, E820 extension, SRAT, SLIT and EFI memory map. These
also serve tests of a virtual machine monitor.

docs/FORMATS.md describes the forms. Addresses and sizes are in bytes.
"""

from __future__ import annotations

import struct
from typing import Iterable, Sequence

RAM, RESERVED, ACPI, NVS, UNUSABLE, SOFT_RESERVED = 1, 2, 3, 4, 5, 0xEFFFFFFF

# An entry of the firmware's map: base, size and E820 type.
Entry = tuple[int, int, int]
# An initrd: base and size.
Initrd = tuple[int, int]

PAGE_SIZE = 4096
ROOM = 128  # entries of a zero page
EXTENSION_ROOM = (61456 - 16) // 20  # entries of an extension
# Offsets in the zero page: the number of entries and the first entry; the loader; the initrd's
# address and size, whose upper halves are elsewhere.
COUNT, ENTRIES = 0x1E8, 0x2D0
LOADER_TYPE, RAMDISK, HIGH_RAMDISK = 0x210, 0x218, 0x0C0
LOADER = 0xFF  # a boot loader without a number of its own
STRIDE = 48  # bytes of a descriptor in x86 firmware's map


def entry_bytes(entries: Iterable[Entry]) -> bytes:
    """Returns these entries in the form that zero page and extension have (struct
    boot_e820_entry)."""
    return b"".join(struct.pack("<QQI", *entry) for entry in entries)


def zero_page(entries: Sequence[Entry], initrd: Initrd | None = None) -> bytes:
    """Returns a zero page with these entries, at most 128, and this initrd (struct boot_params).

    # Errors
    A ValueError if there are more entries than a zero page has room for.
    """
    if len(entries) > ROOM:
        raise ValueError(
            f"a zero page has room for {ROOM} entries, not {len(entries)}: the further ones belong "
            "into an extension (`map_files` makes both)")
    page = bytearray(PAGE_SIZE)
    page[COUNT] = len(entries)
    body = entry_bytes(entries)
    page[ENTRIES:ENTRIES + len(body)] = body
    if initrd:
        base, size = initrd
        page[LOADER_TYPE] = LOADER
        struct.pack_into("<II", page, HIGH_RAMDISK, base >> 32, size >> 32)
        struct.pack_into("<II", page, RAMDISK, base & 0xFFFFFFFF, size & 0xFFFFFFFF)
    return bytes(page)


def extension(entries: Sequence[Entry]) -> bytes:
    """Returns an extension with these entries, at most 3,072 (struct setup_data of type
    SETUP_E820_EXT).

    # Errors
    A ValueError if there are more entries than an extension has room for.
    """
    if len(entries) > EXTENSION_ROOM:
        raise ValueError(f"an extension has room for {EXTENSION_ROOM} entries")
    return struct.pack("<QII", 0, 1, 20 * len(entries)) + entry_bytes(entries)


def entries_of(data: bytes) -> list[Entry]:
    """Returns the entries in bytes of a zero page or an extension, of 20 bytes each."""
    return [(base, size, kind) for base, size, kind in struct.iter_unpack("<QQI", data)]


def map_files(entries: Sequence[Entry], initrd: Initrd | None = None) -> tuple[bytes, bytes | None]:
    """Returns a zero page, and an extension with the entries for which the zero page has no room, or
    None if it has room for all."""
    return zero_page(entries[:ROOM], initrd), extension(entries[ROOM:]) if entries[ROOM:] else None


def sealed(table: bytes) -> bytes:
    """Returns an ACPI table with a checksum byte that makes the sum of its bytes 0."""
    cleared = table[:9] + b"\0" + table[10:]
    return table[:9] + bytes([-sum(cleared) % 256]) + table[10:]


def acpi_table(signature: bytes, body: bytes, revision: int = 1) -> bytes:
    """Returns an ACPI table with this body (struct acpi_table_header)."""
    head = struct.pack("<4sIBB6s8sI4sI", signature, 36 + len(body), revision, 0,
                       b"x", b"x", 1, b"x", 1)
    return sealed(head + body)


def memory_affinity(first: int, size: int, domain: int, flags: int = 1) -> bytes:
    """Returns an SRAT's entry for a range of memory; flag 1 enables it (struct
    acpi_srat_mem_affinity)."""
    return struct.pack("<BBIHQQIIQ", 1, 40, domain, 0, first, size, 0, flags, 0)


def processor_affinity(domain: int, apic: int = 0) -> bytes:
    """Returns an SRAT's entry for the processor of this APIC id (struct acpi_srat_cpu_affinity)."""
    low, high = domain & 0xFF, (domain >> 8).to_bytes(3, "little")
    return struct.pack("<BBBBIB", 0, 16, low, apic, 1, 0) + high + bytes(4)


def x2apic_affinity(domain: int, apic: int) -> bytes:
    """Returns an SRAT's entry for the processor of this x2APIC id (struct
    acpi_srat_x2apic_cpu_affinity)."""
    return struct.pack("<BBHIIIII", 2, 24, 0, domain, apic, 1, 0, 0)


def srat(blocks: Iterable[tuple[int, int, int]], domains: Iterable[int] = ()) -> bytes:
    """Returns an SRAT, revision 3: a processor for each of the domains, and these blocks, each a
    base, a size and a domain."""
    entries = [processor_affinity(domain) for domain in domains]
    return srat_of(entries + [memory_affinity(*block) for block in blocks])


def srat_of(entries: Iterable[bytes]) -> bytes:
    """Returns an SRAT, revision 3, of these entries."""
    return acpi_table(b"SRAT", struct.pack("<IQ", 1, 0) + b"".join(entries), 3)


def slit(rows: Sequence[Sequence[int]]) -> bytes:
    """Returns an SLIT with these distances, a row for each domain."""
    return acpi_table(b"SLIT", struct.pack("<Q", len(rows)) + b"".join(map(bytes, rows)))


def efi_map(descriptors: Iterable[tuple[int, int, int, int]]) -> bytes:
    """Returns an EFI memory map of these descriptors, each a type, an address, a number of pages
    and attributes."""
    body = [struct.pack("<IIQQQQQ", kind, 0, first, 0, pages, attributes, 0)
            for kind, first, pages, attributes in descriptors]
    return struct.pack("<II", STRIDE, 1) + b"".join(body)
