"""The page tables of the kernel's direct map, and their places in memblock, as Linux 6.1 makes them
(arch/x86/mm/init.c).

Addresses are in bytes, and a range is its first byte and the one past its last.
"""

from __future__ import annotations

import bisect
from typing import Iterable, Iterator, NamedTuple

from bootmem_tools.ranges import FRAME, GIB, MIB

PMD, PUD, P4D, PGD = 2 << 20, GIB, 1 << 39, 1 << 48  # what one entry of each table maps
BRK_PAGES = 16  # pages of brk for page tables (INIT_PGT_BUF_SIZE)

# A range: its first byte, and the byte past its last.
Span = tuple[int, int]


def down(address: int, unit: int) -> int:
    """Returns the address rounded down to a multiple of the unit."""
    return address // unit * unit


def up(address: int, unit: int) -> int:
    """Returns the address rounded up to a multiple of the unit."""
    return -(-address // unit) * unit


def united(spans: Iterable[Span]) -> list[Span]:
    """Returns the ranges, ascending, with those that touch or overlap joined."""
    whole: list[Span] = []
    for first, end in sorted(spans):
        if whole and first <= whole[-1][1]:
            whole[-1] = whole[-1][0], max(whole[-1][1], end)
        elif first < end:
            whole.append((first, end))
    return whole


def is_within(spans: list[Span], first: int, end: int) -> bool:
    """Returns whether one of these ascending ranges contains this range."""
    place = bisect.bisect_right(spans, (first, 1 << 64)) - 1
    return place >= 0 and spans[place][0] <= first and end <= spans[place][1]


class Free:
    """The ranges of memory that nobody has claimed, ascending, in which memblock searches
    (memblock_find_in_range)."""

    def __init__(self, memory: Iterable[Span]) -> None:
        self.spans = united(memory)

    def claim(self, first: int, end: int) -> None:
        """Removes a range that is claimed (memblock_reserve)."""
        place = bisect.bisect_right(self.spans, (first, 0))
        place -= 1 if place and self.spans[place - 1][1] > first else 0
        stop, rest = place, []
        while stop < len(self.spans) and self.spans[stop][0] < end:
            low, high = self.spans[stop]
            rest += [(low, first)] if low < first else []
            rest += [(end, high)] if high > end else []
            stop += 1
        self.spans[place:stop] = rest

    def release(self, spans: Iterable[Span]) -> None:
        """Adds ranges of memory that are freed (memblock_phys_free)."""
        self.spans = united(self.spans + list(spans))

    def find(self, size: int, align: int, low: int, high: int) -> int:
        """Returns the highest address of a free place of this size and alignment that lies between
        `low` and `high`, or 0 if there is none."""
        low = max(low, FRAME)
        place = bisect.bisect_left(self.spans, (high, 0)) - 1
        while place >= 0 and self.spans[place][1] > low:
            first, end = max(self.spans[place][0], low), min(self.spans[place][1], high)
            found = down(end - size, align) if end - first >= size else 0
            if found >= first and found:
                return found
            place -= 1
        return 0

    def take(self, size: int, align: int, low: int, high: int) -> int:
        """Finds a place as `find` does, claims it and returns its address, or 0."""
        place = self.find(size, align, low, high)
        if place:
            self.claim(place, place + size)
        return place


class Table(NamedTuple):
    """A page from memblock for a page table: its address, and the window of the search."""

    place: int
    low: int
    high: int


class Exhausted(Exception):
    """No memory is left for a page table: the kernel panics (alloc_low_pages)."""


class DirectMap:
    """The direct map while it is made: its tables, the mapped ranges, and the pages from memblock
    that became tables.

    Tables use pages of brk until these run out. `largest` is the largest page in bytes: 4 KiB,
    2 MiB or 1 GiB."""

    def __init__(
        self,
        memory: Iterable[Span],
        free: Free,
        brk: int,
        largest: int,
        has_five_levels: bool,
        is_random: bool,
    ) -> None:
        self.memory = united(memory)
        self.free, self.largest = free, largest
        self.has_five_levels, self.is_random = has_five_levels, is_random
        self.brk, self.brk_end = brk, brk + BRK_PAGES * FRAME
        self.may_use_brk = True
        self.low = (
            self.high
        ) = 0  # the window for pages of memblock (min_pfn_mapped, max_pfn_mapped)
        self.tables: set[tuple[int, int]] = set()
        self.large: set[int] = set()  # pages of 1 GiB, by number
        self.pages: list[Table] = []
        self.mapped: list[Span] = []

    def add_page(self) -> None:
        """Allocates a page for a table (alloc_low_pages)."""
        if self.brk < self.brk_end and self.may_use_brk:
            self.brk += FRAME
            return
        place = self.free.take(FRAME, FRAME, self.low, self.high) if self.low < self.high else 0
        if place:
            self.pages.append(Table(place, self.low, self.high))
        elif not self.may_use_brk:
            raise Exhausted

    def add_table(self, level: int, number: int) -> None:
        """Makes the table of this level and number, unless it exists. Tables of level 2, 3, 4 and 5
        each belong to an entry of 2 MiB, 1 GiB, 512 GiB and 256 TiB."""
        if (level, number) not in self.tables:
            self.add_page()
            self.tables.add((level, number))

    def parts(self, first: int, end: int) -> list[tuple[int, int, int]]:
        """Returns the parts of a range, each with the size of its pages (split_mem_range,
        adjust_range_page_size_mask)."""
        middle = up(first, PMD), down(end, PMD)
        inner = up(first, PUD), down(end, PUD)
        cuts = [first, min(middle[0], end)]
        if middle[0] < middle[1]:
            cuts += (
                [min(inner[0], middle[1])]
                + ([inner[1]] if inner[0] < inner[1] else [])
                + [middle[1]]
            )
        found: list[tuple[int, int, int]] = []
        for low, high in zip(cuts, cuts[1:] + [end]):
            if low < high:
                size = self.page_size(low, high)
                if found and found[-1][1:] == (low, size):
                    low = found.pop()[0]
                found.append((low, high, size))
        return found

    def page_size(self, first: int, end: int) -> int:
        """Returns the size of the largest page for a part. The part, rounded out to such pages,
        must all be memory (memblock_is_region_memory)."""
        for size in (PUD, PMD):
            if size <= self.largest and (
                first % size == 0 == end % size
                or is_within(self.memory, down(first, size), up(end, size))
            ):
                return size
        return FRAME

    def map_range(self, first: int, end: int) -> None:
        """Maps a range (init_memory_mapping)."""
        last = (first, end, FRAME)
        for last in self.parts(first, end):
            for low in range(down(last[0], PUD), last[1], PUD):
                self.map_giant(max(low, last[0]), min(low + PUD, last[1]), last[2])
        self.high = max(self.high, end)
        if last[2] == PUD and (last[1] - 1) // PUD in self.large:
            self.high = max(self.high, up(last[1], PUD))
        elif last[2] > FRAME:
            self.high = max(self.high, up(last[1], PMD))
        self.mapped.append((first, end))

    def map_giant(self, first: int, end: int, size: int) -> None:
        """Maps a range inside one GiB with pages of this size (phys_pud_init, phys_pmd_init)."""
        if self.has_five_levels:
            self.add_table(5, first // PGD)
        self.add_table(4, first // P4D)
        number = first // PUD
        if size == PUD and (number in self.large or (3, number) not in self.tables):
            self.large.add(number)
            return
        self.large.discard(number)
        self.add_table(3, number)
        if size == FRAME:
            for low in range(first // PMD, -(-end // PMD)):
                self.add_table(2, low)

    def memory_within(self, first: int, end: int) -> Iterator[Span]:
        """Yields the ranges of memory between these addresses, ascending."""
        place = max(bisect.bisect_right(self.memory, (first, 1 << 64)) - 1, 0)
        while place < len(self.memory) and self.memory[place][0] < end:
            low, high = max(self.memory[place][0], first), min(self.memory[place][1], end)
            if low < high:
                yield low, high
            place += 1

    def map_memory(self, first: int, end: int) -> int:
        """Maps the memory between these addresses, and returns its bytes
        (init_range_memory_mapping)."""
        size = 0
        for low, high in self.memory_within(first, end):
            # brk's pages aren't used while the range that is being mapped contains unused ones
            self.may_use_brk = max(low, self.brk) >= min(high, self.brk_end)
            self.map_range(low, high)
            size += high - low
            self.may_use_brk = True
        return size

    def make(self, end: int) -> None:
        """Maps all memory below `end`, from the top down (init_mem_mapping, memory_map_top_down).

        # Errors
        Exhausted if no memory is left for a table.
        """
        self.map_range(0, MIB)
        for _ in range(self.is_random * (1 + self.has_five_levels)):
            self.add_page()  # the trampoline's tables (init_trampoline_kaslr)
        place = self.free.find(PMD, PMD, MIB, end)
        top = place + PMD if place else max(MIB, down(end, PMD))
        step, size, last = PMD, 0, top
        self.high, self.low = 0, top
        while last > MIB:
            start = max(down(last - 1, step), MIB) if last > step else MIB
            size += self.map_memory(start, last)
            last = self.low = start
            if size >= step:
                step <<= 8
            below = bisect.bisect_left(self.memory, (last, 0)) - 1
            if (
                below >= 0 and MIB < self.memory[below][1] < last
            ):  # steps without memory map nothing
                last = self.low = min(last, up(self.memory[below][1], step))
        if top < end:
            self.map_memory(top, end)
