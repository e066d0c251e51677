"""Reduces the rows of bootmem-draw's picture: drops those outside a range of addresses, and folds
rows for which there is no room into single rows that state how many they are."""

from __future__ import annotations

import bisect
from typing import Callable, Iterator, Sequence

from bootmem_tools import ranges
from bootmem_tools.columns import GREY, Column, Row


def cut(columns: Sequence[Column], first: int, last: int) -> list[Column]:
    """Returns the columns with only the bytes from first to last. A row that is cut keeps its name,
    its tool tip and its whole size."""
    def part(row: Row) -> Row:
        """Returns the row's bytes in the range."""
        return row._replace(first=max(row.first, first), last=min(row.last, last), whole=row.size)

    def parts(lane: Sequence[Row]) -> list[Row]:
        """Returns the lane's rows in the range."""
        return [part(row) for row in lane if row.first <= last and first <= row.last]
    return [Column(column.head, [kept for kept in map(parts, column.lanes) if kept] or [[]])
            for column in columns]


def folded(columns: Sequence[Column], height: Callable[[Sequence[Column]], int], most: int) -> Sequence[Column]:
    """Returns the columns, folded until their height is at most `most`. The ends of the largest rows
    are kept as borders, and the rows between two borders are folded into one."""
    if height(columns) <= most:
        return columns
    ends = by_weight(columns)
    count = min(len(ends), most // 10)
    while count > 2:
        kept = sorted(ends[:count])
        less = [Column(column.head, [list(folded_lane(lane, kept)) for lane in column.lanes])
                for column in columns]
        if height(less) <= most:
            return less
        count = count * 7 // 8
    return columns


def by_weight(columns: Sequence[Column]) -> list[int]:
    """Returns all ends of rows, the most important first: the first and the last one, then by the size
    of the largest row that begins or ends there, in powers of 4. Those of about one size come in an
    order that spreads them over the picture."""
    weight: dict[int, int] = {}
    for column in columns:
        for lane in column.lanes:
            for row in lane:
                size = (row.last + 1 - row.first).bit_length() // 2
                for end in (row.first, row.last + 1):
                    weight[end] = max(weight.get(end, 0), size)
    ends = sorted(weight)
    digits = len(ends).bit_length()
    spread = {end: int(f"{number:0{digits}b}"[::-1], 2) for number, end in enumerate(ends)}
    middle = sorted(ends[1:-1], key=lambda end: (-weight[end], spread[end]))
    return [ends[0], ends[-1], *middle]


def folded_lane(lane: Sequence[Row], kept: Sequence[int]) -> Iterator[Row]:
    """Yields the rows of a lane whose ends are kept. Other rows are folded into one row each, which
    reaches from the last kept end before them to the first one after them."""
    group: list[Row] = []
    first = after = 0
    for row in lane:
        low = kept[bisect.bisect_right(kept, row.first) - 1]
        high = kept[bisect.bisect_left(kept, row.last + 1)]
        if group and low >= after:
            yield one_row(group, first, after)
            group = []
        if (low, high) == (row.first, row.last + 1):
            yield row
            continue
        first = first if group else low
        after = max(after, high) if group else high
        group.append(row)
    if group:
        yield one_row(group, first, after)


def one_row(group: Sequence[Row], first: int, after: int) -> Row:
    """Returns one row in place of a group, from `first` up to, but not including, `after`."""
    rows = [row for row in group if row.colour is not None] or group
    if len(rows) == 1:
        return rows[0]._replace(first=first, last=after - 1, whole=rows[0].size)
    names = sorted({row.name for row in rows})
    colours = {row.colour for row in rows}
    name = f"{len(rows)} \u00d7 {names[0]}" if len(names) == 1 else f"{len(rows)} folded"
    bounds = ranges.range_text(rows[0].first, rows[-1].last)
    tip = f"{bounds}: {len(rows)} rows: {', '.join(names[:4])}{', ..' if len(names) > 4 else ''}"
    colour = colours.pop() if len(colours) == 1 else GREY
    return Row(first, after - 1, name, colour, tip, sum(row.size for row in rows))
