"""Addresses, sizes and ranges: how the tools read and print them, and sweeps over lists of ranges.

Addresses and sizes are in bytes, and a range is its first and its last byte.
"""

from __future__ import annotations

import re
from typing import Iterable, Iterator, Protocol, Sequence, TypeVar

FRAME = 4096
SECTION = 128 << 20
MIB, GIB = 1 << 20, 1 << 30
TOP = (1 << 64) - 1

# The first and the last byte of a range.
Range = tuple[int, int]


class Ranged(Protocol):
    """Anything with a first and a last byte."""

    @property
    def first(self) -> int:
        """Returns the first byte."""

    @property
    def last(self) -> int:
        """Returns the last byte."""


One = TypeVar("One", bound=Ranged)


def at(found: Iterable[One], address: int) -> list[One]:
    """Returns those that contain the address."""
    return [one for one in found if one.first <= address <= one.last]


def sweep(*lists: Sequence[One]) -> Iterator[tuple[int, int, list[list[One]]]]:
    """Yields each range between two neighbouring ends in these lists, ascending, with the members of
    each list that contain it."""
    ends = sorted({end for each in lists for one in each for end in (one.first, one.last + 1)})
    waiting = [sorted(each, key=lambda one: one.first, reverse=True) for each in lists]
    active: list[list[One]] = [[] for _ in lists]
    for first, after in zip(ends, ends[1:]):
        for number, later in enumerate(waiting):
            active[number] = [one for one in active[number] if one.last >= first]
            while later and later[-1].first == first:
                active[number].append(later.pop())
        yield first, after - 1, [list(each) for each in active]


def joined(found: Iterable[Range]) -> list[Range]:
    """Returns the ranges, ascending, with those that touch or overlap joined."""
    whole: list[Range] = []
    for first, last in sorted(found):
        if whole and first <= whole[-1][1] + 1:
            whole[-1] = whole[-1][0], max(whole[-1][1], last)
        else:
            whole.append((first, last))
    return whole


def without(found: Iterable[Range], first: int, last: int) -> list[Range]:
    """Returns the ranges without the bytes from first to last."""
    parts = [part for low, high in found
             for part in ((low, min(high, first - 1)), (max(low, last + 1), high))]
    return [part for part in parts if part[0] <= part[1]]


def common(found: Iterable[Range], others: Sequence[Range]) -> list[Range]:
    """Returns the ranges of the bytes that both lists have."""
    parts = [(max(low, first), min(high, last)) for low, high in found for first, last in others]
    return joined(part for part in parts if part[0] <= part[1])


def parse_size(text: str) -> int | None:
    """Returns the number of a text like 4096, 0x1000, 640K or 0x10M (K, M, G, T, P: powers of
    1,024), or None."""
    match = re.fullmatch(r"(0[xX][0-9a-fA-F]+|[0-9]+)([kKmMgGtTpP]?)", text)
    if match is None:
        return None
    digits, suffix = match.groups()
    if len(digits) > 40:
        return None
    number = int(digits, 16 if digits[:2] in ("0x", "0X") else 10)
    number <<= 10 * (" KMGTP".index(suffix.upper()) if suffix else 0)
    return number if number <= TOP else None


def parse_pair(text: str) -> tuple[int, int] | None:
    """Returns base and size of a text BASE,SIZE, two sizes above 0, or None."""
    numbers = [parse_size(part) for part in text.split(",")]
    if len(numbers) != 2 or not numbers[0] or not numbers[1]:
        return None
    return numbers[0], numbers[1]


def size_text(size: int) -> str:
    """Returns a size in its greatest unit: 40 B, 4 KiB, 1.9 GiB; a size without a fraction is
    exact."""
    for power, unit in ((4, "TiB"), (3, "GiB"), (2, "MiB"), (1, "KiB")):
        one = 1 << (10 * power)
        if size >= one:
            return f"{size // one} {unit}" if size % one == 0 else f"{size / one:.1f} {unit}"
    return f"{size} B"


def hex_text(address: int) -> str:
    """Returns an address in the reports' own form, 0x and 16 digits."""
    return f"0x{address:016x}"


def range_text(first: int, last: int) -> str:
    """Returns a range as the kernel's log has it: 0x..-0x.., its last byte included."""
    return f"{hex_text(first)}-{hex_text(last)}"
