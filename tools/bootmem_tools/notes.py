"""Makes notes on a boot that its reports don't show: an image that isn't all in RAM, blocks of the SRAT that overlap, and memory in none of
them."""

from __future__ import annotations

import os
import struct
from typing import Iterator, NamedTuple, Sequence

from bootmem_tools import ranges
from bootmem_tools.grammar import read_lines
from bootmem_tools.reports import Texts, memory_of

FIRST_ENTRY = 48  # the offset of an SRAT's first entry
MEMORY_ENTRY, MEMORY_LENGTH, ENABLED = 1, 40, 1
LONGEST = 1 << 20  # bytes of a table that the program reads
MOST = 4  # ranges that a note names
NARROW = 1  # the last revision of an SRAT in which domains have 8 bits


class Block(NamedTuple):
    """An enabled range of memory of an SRAT, both ends rounded down to frames: its first byte, the byte after its last, and its domain."""

    first: int
    end: int
    domain: int


def value_in(words: Sequence[str], option: str) -> str | None:
    """Returns the value of an option in the program's words, in the next word or after `=`; None if it isn't there."""
    for index, word in enumerate(words):
        if word == "--":
            break
        if word == option and index + 1 < len(words):
            return words[index + 1]
        if word.startswith(option + "="):
            return word[len(option) + 1:]
    return None


def named(found: Sequence[ranges.Range]) -> str:
    """Returns a text that names the first of the ranges, and how many more there are."""
    text = ", ".join(ranges.range_text(*one) for one in found[:MOST])
    return text + (f" and {len(found) - MOST} more" if len(found) > MOST else "")


def place_note(place: str | None, texts: Texts) -> str | None:
    """Returns a note if the kernel's image at `BASE,SIZE` isn't all in RAM of the report `map`, or None."""
    pair = ranges.parse_pair(place) if place is not None else None
    if pair is None or "map" not in texts:
        return None
    base, size = pair
    outside = [(base, base + size - 1)]
    for first, last in memory_of(texts):
        outside = ranges.without(outside, first, last)
    if not outside:
        return None
    return (f"--kernel {place}: the map has no RAM at {named(outside)}, so the image can't lie there whole; "
            "is it the place on another machine, or of another boot (KASLR)?")


def blocks_of(table: bytes) -> list[Block]:
    """Returns the blocks of an SRAT in the order of their numbers, including empty ones (acpi_numa_memory_affinity_init)."""
    found, place = [], FIRST_ENTRY
    while place + 2 <= len(table) and table[place + 1] >= 2:
        kind, length = table[place], table[place + 1]
        if kind == MEMORY_ENTRY and length >= MEMORY_LENGTH and place + MEMORY_LENGTH <= len(table):
            domain, base, size, flags = struct.unpack_from("<2xI2xQQ4xI", table, place)
            if flags & ENABLED:
                first, end = base // ranges.FRAME * ranges.FRAME, (base + size) // ranges.FRAME * ranges.FRAME
                found.append(Block(first, end, domain & 0xFF if table[8] <= NARROW else domain))
        place += length
    return found


def blocks_in(path: str) -> list[Block]:
    """Returns the blocks of the SRAT in this file; none if it isn't a plain file."""
    if not os.path.isfile(path):
        return []
    with open(path, "rb") as file:
        return blocks_of(file.read(LONGEST))


def uncovered_ranges(path: str, texts: Texts) -> list[ranges.Range]:
    """Returns the memory of the report `map`, in whole frames, that no block of the SRAT in this file covers."""
    blocks = blocks_in(path)
    if not blocks:
        return []
    found = []
    for first, last in memory_of(texts):
        begin, end = -(-first // ranges.FRAME) * ranges.FRAME, (last + 1) // ranges.FRAME * ranges.FRAME
        found += [(begin, end - 1)] if begin < end else []
    for first, end, _ in blocks:
        found = ranges.without(found, first, end - 1) if first < end else found
    return found


def overlap_note(path: str, texts: Texts) -> str | None:
    """Returns a note that names the two blocks of the SRAT that overlap, if the report `nodes` says so, or None."""
    pair = next((line for line in read_lines("nodes", texts["nodes"]) if line.kind == "overlap"), None)
    if pair is None:
        return None
    blocks = blocks_in(path)
    numbers = [int(pair.fields[name]) for name in ("one", "other")]
    if max(numbers) >= len(blocks):
        return None
    one, other = (f"{ranges.range_text(block.first, block.end - 1)} of domain {block.domain}" for block in map(blocks.__getitem__, numbers))
    return f"the SRAT isn't used: its blocks {numbers[0]} and {numbers[1]} overlap: {one} and {other}"


def uncovered_note(path: str, texts: Texts) -> str | None:
    """Returns a note that names the memory outside all blocks of the SRAT, if the report `nodes` counts such frames, or None."""
    lines = list(read_lines("nodes", texts["nodes"]))
    refused = sum(int(line.fields["frames"]) for line in lines if line.kind == "not covered")
    taken = sum(int(line.fields["uncovered"]) for line in lines if line.kind == "uncovered")
    if not refused and not taken or "map" not in texts:
        return None
    where = named(uncovered_ranges(path, texts))
    if refused:
        return f"the SRAT isn't used: {refused} frames of memory are in none of its blocks, 256 or more: {where}"
    return f"{taken} frames of memory are in no block of the SRAT, and get the lowest node: {where}"


def srat_note(path: str | None, texts: Texts) -> str | None:
    """Returns a note on an SRAT that isn't used because two blocks overlap, or that leaves memory out, by the report `nodes`; else None."""
    if path is None or "nodes" not in texts:
        return None
    return overlap_note(path, texts) or uncovered_note(path, texts)


def notes_for(words: Sequence[str], texts: Texts) -> Iterator[str]:
    """Yields the notes for a run of the program with these words and reports."""
    for note in (place_note(value_in(words, "--kernel"), texts), srat_note(value_in(words, "--srat"), texts)):
        if note:
            yield note
