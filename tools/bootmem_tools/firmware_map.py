"""The firmware's map as a running kernel shows it: the folder /sys/firmware/memmap, and the
resources of /proc/iomem."""

from __future__ import annotations

import os
from typing import Iterable

from bootmem_tools import machine, ranges, tool
from bootmem_tools.inputs import ACPI, NVS, RAM, RESERVED, SOFT_RESERVED, UNUSABLE, Entry

# The types by the names that the kernel prints there (e820_type_to_string).
TYPES = {
    "System RAM": RAM,
    "Reserved": RESERVED,
    "reserved": RESERVED,  # before Linux 4.16
    "ACPI Tables": ACPI,
    "ACPI Non-volatile Storage": NVS,
    "Unusable memory": UNUSABLE,
    "Persistent Memory": 7,
    "Persistent Memory (legacy)": 12,
    "Soft Reserved": SOFT_RESERVED,
    "Unknown E820 type": RESERVED,  # a type without a name, which isn't memory either
}
SHORT = tool.Kind("number or type of an entry", 64)


def is_memmap(path: str) -> bool:
    """Returns whether the path names a folder like /sys/firmware/memmap."""
    return os.path.isfile(os.path.join(path, "0", "start"))


def entries_of_memmap(path: str) -> list[Entry]:
    """Returns the entries of a folder like /sys/firmware/memmap, ascending.

    # Errors
    A Trouble if an entry isn't of its form.
    """
    found = []
    for name in sorted(filter(str.isdigit, os.listdir(path)), key=int):
        folder = os.path.join(path, name)
        first, last = (number_in(os.path.join(folder, part)) for part in ("start", "end"))
        kind = tool.read_text(os.path.join(folder, "type"), kind=SHORT).strip()
        if kind not in TYPES:
            raise tool.Trouble(f"{folder}: {tool.quoted(kind)} is no type that is known")
        if last < first or last == ranges.TOP:
            raise tool.Trouble(f"{folder}: a range that ends before it begins, or beyond 2^64 - 1")
        found.append((first, last + 1 - first, TYPES[kind]))
    return sorted(found)


def number_in(path: str) -> int:
    """Returns the number of a file that has one hexadecimal number and nothing else.

    # Errors
    A Trouble if the file has anything else.
    """
    text = tool.read_text(path, kind=SHORT).strip()
    number = ranges.parse_size(text) if text.startswith("0x") else None
    if number is None:
        raise tool.Trouble(f"{path}: {tool.quoted(text)} is no number like 0x100000")
    return number


def is_iomem(text: str) -> bool:
    """Returns whether a text is that of /proc/iomem."""
    return any(one.name in TYPES for one in machine.read_iomem(text[: 1 << 16]))


def entries_of_iomem(text: str) -> list[Entry]:
    """Returns the entries of the kernel's own map from a text of /proc/iomem. A resource inside
    another one isn't an entry.

    # Errors
    A Trouble if the kernel hid the addresses, which it does without root.
    """
    found = list(machine.read_iomem(text))
    if found and not any(one.last for one in found):
        raise tool.Trouble("the kernel hid the addresses of /proc/iomem: it shows them to root alone")
    return [(first, last + 1 - first, kind) for first, last, kind in outermost(found)]


def outermost(found: Iterable[machine.Resource]) -> list[tuple[int, int, int]]:
    """Returns first and last byte and type of the resources that are entries, without those inside
    another one."""
    kept: list[tuple[int, int, int]] = []
    for one in found:
        if one.name in TYPES and one.first <= one.last and not (kept and one.first <= kept[-1][1]):
            kept.append((one.first, one.last, TYPES[one.name]))
    return kept
