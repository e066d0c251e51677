"""Rewrites an SRAT so that bootmem reads it as Linux 6.1 reads the given one
(drivers/acpi/numa/srat.c)."""

from __future__ import annotations

import struct
from typing import Iterator, NamedTuple

from bootmem_tools import inputs

HEAD = 48  # bytes of the header
DOMAINS = 1024  # MAX_PXM_DOMAINS
UNUSABLE = 255  # the first x2APIC id that can't be used without x2APIC mode
PROCESSOR, MEMORY, X2APIC, INITIATOR = 0, 1, 2, 5
LEAST = {PROCESSOR: 16, MEMORY: 40, X2APIC: 24, INITIATOR: 32}  # bytes of an entry


class Reading(NamedTuple):
    """The table, or None if the kernel drops it; and the changes, one line each."""

    table: bytes | None
    changes: list[str]


class Dropped(Exception):
    """Why the kernel drops the table (bad_srat)."""


def read_entries(table: bytes) -> Iterator[tuple[int, bytes]]:
    """Yields the kinds and bytes of the table's entries."""
    place, end = HEAD, min(len(table), struct.unpack_from("<I", table, 4)[0])
    while place + 2 < end and table[place + 1]:
        yield table[place], table[place : place + table[place + 1]]
        place += table[place + 1]


def processor_domain(kind: int, entry: bytes, revision: int, has_x2apic: bool) -> int | None:
    """Returns the domain that an entry of the processors' pass names, or None if it names none.

    # Errors
    Dropped for a wrong length.
    """
    if len(entry) < LEAST[kind] or kind == PROCESSOR and len(entry) != LEAST[kind]:
        raise Dropped(f"an entry of type {kind} has {len(entry)} bytes")
    if kind == PROCESSOR:
        domain = entry[2] | (int.from_bytes(entry[9:12], "little") << 8 if revision >= 2 else 0)
        return domain if entry[4] & 1 else None
    if kind == X2APIC:
        domain, number, flags = struct.unpack_from("<III", entry, 4)
        return domain if flags & 1 and (has_x2apic or number < UNUSABLE) else None
    domain = struct.unpack_from("<I", entry, 4)[0]
    return domain if entry[24] & 1 else None


def processors(
    entries: list[tuple[int, bytes]], revision: int, has_x2apic: bool, changes: list[str]
) -> Iterator[bytes]:
    """Yields the entries of the kernel's pass over processors, in table order, in the form that the
    program reads (acpi_numa_init)."""
    for kind, entry in entries:
        if kind not in (PROCESSOR, X2APIC, INITIATOR):
            continue
        domain = processor_domain(kind, entry, revision, has_x2apic)
        if kind == INITIATOR and (domain is None or domain >= DOMAINS):
            changes.append(
                "a generic initiator that is disabled or can't be used ends the processors' pass"
                " (acpi_parse_entries_array)"
            )
            return
        if domain is None:
            if kind == X2APIC and entry[12] & 1:
                changes.append(
                    "an x2APIC entry whose id can't be used names no domain; --x2apic lets it"
                    " (acpi_numa_x2apic_affinity_init)"
                )
            continue
        if domain >= DOMAINS:
            raise Dropped(f"domain {domain} is 1,024 or more")
        if kind == INITIATOR:
            changes.append(f"a generic initiator names domain {domain} (acpi_parse_gi_affinity)")
        yield struct.pack("<BBHIIIII", X2APIC, 24, 0, domain, 0, 1, 0, 0)


def blocks(entries: list[tuple[int, bytes]], revision: int, changes: list[str]) -> Iterator[bytes]:
    """Yields the enabled blocks of memory in the form that the program reads
    (acpi_numa_memory_affinity_init)."""
    for kind, entry in entries:
        if kind != MEMORY:
            continue
        if len(entry) < LEAST[MEMORY]:
            raise Dropped(f"an entry of type {MEMORY} has {len(entry)} bytes")
        if not entry[28] & 1:
            continue
        domain = struct.unpack_from("<I", entry, 2)[0] & (0xFF if revision <= 1 else 0xFFFFFFFF)
        if domain >= DOMAINS:
            raise Dropped(f"domain {domain} is 1,024 or more")
        first, size = struct.unpack_from("<QQ", entry, 8)
        if first + size >= 1 << 64:
            changes.append(
                f"the block at {first:#x} passes 2^64: it is passed over (numa_add_memblk_to)"
            )
            first = size = 0
        if len(entry) > LEAST[MEMORY]:
            changes.append(f"an entry of memory has {len(entry)} bytes: its first 40 are read")
        yield inputs.memory_affinity(first, size, domain)


def read_table(table: bytes, has_x2apic: bool) -> Reading:
    """Returns an SRAT as the kernel reads it. A table that is shorter than a header, or has another
    signature, is returned unchanged."""
    if len(table) < HEAD or table[:4] != b"SRAT":
        return Reading(table, [])
    changes: list[str] = []
    if sum(table) % 256:
        changes.append(
            "its checksum is wrong: the kernel doesn't look at it that early (acpi_table_parse)"
        )
    entries = list(read_entries(table))
    try:
        body = b"".join(processors(entries, table[8], has_x2apic, changes)) + b"".join(
            blocks(entries, table[8], changes)
        )
    except Dropped as dropped:
        return Reading(None, changes + [f"it is dropped: {dropped} (bad_srat)"])
    head = struct.pack("<4sIB", b"SRAT", HEAD + len(body), 3)
    return Reading(inputs.sealed(head + table[9:HEAD] + body), changes)
