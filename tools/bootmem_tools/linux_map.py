"""Makes two edits of a boot's memory maps that Linux 6.1 makes and no word of the command line can
make: invalid descriptors of EFI's map are dropped, and the kernel's image becomes RAM after EFI's
map was added."""

from __future__ import annotations

from typing import Iterable, NamedTuple, Sequence

from bootmem_tools import command_line, inputs, ranges
from bootmem_tools.inputs import Entry
from bootmem_tools.linux_claims import Descriptor, read_descriptors

HEADER = 8  # bytes before the first descriptor of an EFI memory map
MOST = 4  # dropped descriptors that get a line of their own
RULE = "efi_memmap_entry_valid"
EDITS = ("mem", "memmap", command_line.EFI)  # words of the line that change the map


class Cleaned(NamedTuple):
    """An EFI memory map without invalid descriptors, and the invalid ones with their numbers from 0."""

    data: bytes
    dropped: list[tuple[int, Descriptor]]


def is_valid(one: Descriptor) -> bool:
    """Returns whether the kernel keeps a descriptor: it has a page, and ends below 2^64
    (efi_memmap_entry_valid)."""
    return one.first < one.end <= ranges.TOP


def clean_descriptors(data: bytes) -> Cleaned:
    """Returns an EFI memory map without the descriptors that the kernel drops (efi_clean_memmap).
    One whose header or length is wrong stays as it is, since the program refuses it."""
    found = read_descriptors(data)
    stride = int.from_bytes(data[:4], "little")
    dropped = [(place, one) for place, one in enumerate(found) if not is_valid(one)]
    if not dropped or len(data) != HEADER + stride * len(found):
        return Cleaned(data, [])
    parts = (data[HEADER + stride * place :][:stride] for place in range(len(found)))
    kept = [part for part, one in zip(parts, found) if is_valid(one)]
    return Cleaned(data[:HEADER] + b"".join(kept), dropped)


def dropped_lines(dropped: Sequence[tuple[int, Descriptor]]) -> list[str]:
    """Returns the notes on dropped descriptors, one line for each of the first ones."""
    lines = []
    for place, one in dropped[:MOST]:
        pages = (one.end - one.first) // ranges.FRAME
        why = f"its {pages:#x} pages end beyond 2^64" if pages else "it has no pages"
        lines.append(
            f"descriptor {place} of EFI's memory map, at {ranges.hex_text(one.first)}: {why}, so it"
            f" is left out ({RULE})"
        )
    if len(dropped) > MOST:
        rest = len(dropped) - MOST
        lines.append(f"{rest} more descriptors of EFI's memory map: left out ({RULE})")
    return lines


def with_ram(entries: Iterable[Entry], first: int, end: int) -> list[Entry]:
    """Returns entries, which mustn't overlap, with this range replaced by RAM
    (e820_add_kernel_range)."""
    made = [(first, end - first, inputs.RAM)]
    for base, size, kind in entries:
        made += [(base, min(base + size, first) - base, kind)] if base < first else []
        low = max(base, end)
        made += [(low, base + size - low, kind)] if low < base + size else []
    return sorted(made)


def with_table(page: bytes, entries: Sequence[Entry]) -> tuple[bytes, bytes | None]:
    """Returns a zero page with these entries in place of its own, and an extension with the entries
    for which it has no room, or None if it has room for all.

    # Errors
    A ValueError if there are more than both have room for.
    """
    table, more = inputs.map_files(entries)
    changed = bytearray(page)
    changed[inputs.COUNT] = table[inputs.COUNT]
    room = slice(inputs.ENTRIES, inputs.ENTRIES + 20 * inputs.ROOM)
    changed[room] = table[room]
    return bytes(changed), more


def without_edits(line: str) -> str:
    """Returns a command line without the words that change the map."""
    found, end = command_line.words_of(line)
    kept = [word.text for word in found if word.name not in EDITS]
    return " ".join(part for part in (*kept, line[end:].lstrip()) if part)
