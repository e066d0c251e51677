"""Places the areas of cma= and hugetlb_cma= as Linux 6.1 does. It claims them after node data and
before the crash area (kernel/dma/contiguous.c, mm/hugetlb.c, mm/cma.c)."""

from __future__ import annotations

import re
from typing import Iterable, Iterator, NamedTuple, Sequence

from bootmem_tools import command_line, reports
from bootmem_tools.direct_map import PMD, PUD, Free, Span, down, is_within, united, up

ALIGN = PMD  # CMA_MIN_ALIGNMENT_BYTES
LOW = 1 << 32  # if there is room, an area lies as low as possible above this address


# An area: its range, what it is, and the function that claims it.
Area = tuple[Span, str, str]


class Asked(NamedTuple):
    """What `cma=` asks for: size, base and limit, as in cma=SIZE[@BASE[-LIMIT]] (early_cma)."""

    size: int
    base: int
    limit: int


class Node(NamedTuple):
    """A node: its number, and its memory."""

    number: int
    memory: list[Span]


def is_asked(line: str) -> bool:
    """Returns whether the line asks for any area."""
    return cma_asked(line) is not None or hugetlb_asked(line)[0] > 0


def nodes_of(memory: Sequence[Span], parts: Iterable[reports.Span]) -> list[Node]:
    """Returns the nodes with their memory, ascending, from the report `nodes`."""
    found: dict[int, list[Span]] = {}
    for one in parts:
        if "node" not in one.fields:
            continue
        own = found.setdefault(int(one.fields["node"]), [])
        own += [
            (max(first, one.first), min(end, one.last + 1))
            for first, end in memory
            if first <= one.last and one.first < end
        ]
    return [Node(number, united(found[number])) for number in sorted(found) if found[number]]


def cma_asked(line: str) -> Asked | None:
    """Returns what the line's last `cma=` asks for, or None (early_cma)."""
    found = None
    for word in command_line.words_of(line)[0]:
        if word.name == "cma" and word.value:
            size, place = command_line.memparse(word.value, 0)
            base = limit = 0
            if word.value[place : place + 1] == "@":
                base, place = command_line.memparse(word.value, place + 1)
                limit = base + size
                if word.value[place : place + 1] == "-":
                    limit = command_line.memparse(word.value, place + 1)[0]
            found = Asked(size, base, limit)
    return found if found and found.size else None


def hugetlb_asked(line: str) -> tuple[int, dict[int, int]]:
    """Returns what `hugetlb_cma=` asks for: the total, and the sizes for single nodes by their
    numbers (cmdline_parse_hugetlb_cma)."""
    total, nodes = 0, {}
    for word in command_line.words_of(line)[0]:
        if word.name != "hugetlb_cma" or not word.value:
            continue
        value = word.value
        while value:
            match = re.match(r"(\d+):", value)
            if match is None:
                total = command_line.memparse(value, 0)[0] if value[0].isdigit() else total
                break
            size, place = command_line.memparse(value, match.end())
            nodes[int(match.group(1))] = size
            total += size
            if value[place : place + 1] != ",":
                break
            value = value[place + 1 :]
    return total, nodes


def lowest(free: Free, size: int, align: int, low: int, high: int) -> int:
    """Returns the lowest address of a free place of this size and alignment that lies between `low`
    and `high`, or 0 (__memblock_find_range_bottom_up)."""
    for first, end in free.spans:
        place = up(max(first, low), align)
        if place + size <= min(end, high):
            return place
    return 0


def place_area(free: Free, memory: Sequence[Span], asked: Asked, within: Sequence[Span]) -> int:
    """Claims an area and returns its address, or 0 if there is no place
    (cma_declare_contiguous_nid). `within` is the memory of its node, or all memory."""
    end = memory[-1][1] if memory else 0
    is_fixed = bool(asked.base) and asked.base + asked.size == asked.limit
    if is_fixed and asked.base % ALIGN:
        return 0
    base, size, limit = up(asked.base, ALIGN), up(asked.size, ALIGN), down(asked.limit, ALIGN)
    limit = min(limit or end, end)
    if base + size > limit:
        return 0
    if is_fixed:
        place = base if is_within(free.spans, base, base + size) else 0
    else:
        place = place_within(clipped(free, within), size, base, limit, end)
    if place:
        free.claim(place, place + size)
    return place


def place_within(free: Free, size: int, base: int, limit: int, end: int) -> int:
    """Returns the address of a free place between `base` and `limit`: the lowest one above 4 GiB if
    there is memory and room for it there, else the highest one."""
    found = lowest(free, size, ALIGN, LOW, limit) if end >= LOW + size else 0
    return found or free.find(size, ALIGN, base, limit)


def clipped(free: Free, within: Sequence[Span]) -> Free:
    """Returns the part of free memory that lies within these ranges."""
    whole = united(within)
    return Free(
        (max(low, first), min(high, end))
        for low, high in free.spans
        for first, end in whole
        if low < end and first < high
    )


def areas(
    line: str, free: Free, nodes: Sequence[Node], high: int, has_gigantic: bool
) -> Iterator[Area]:
    """Yields the areas that the line asks for, each with what it is and the kernel function that
    claims it. `high` is the end of the mapped memory."""
    memory = united(span for node in nodes for span in node.memory)
    asked = cma_asked(line)
    if asked:
        limit = min(asked.limit or high, high)
        place = place_area(free, memory, asked._replace(limit=limit), memory)
        if place:
            yield (place, place + up(asked.size, ALIGN)), "cma=", "dma_contiguous_reserve"
    if has_gigantic:
        yield from hugetlb_areas(line, free, nodes, memory)


def hugetlb_areas(
    line: str, free: Free, nodes: Sequence[Node], memory: Sequence[Span]
) -> Iterator[Area]:
    """Yields the areas of hugetlb_cma=, in whole GiB (hugetlb_cma_reserve)."""
    total, single = hugetlb_asked(line)
    numbers = {node.number for node in nodes}
    for number, size in list(single.items()):
        if number not in numbers or size < PUD:
            total -= single.pop(number)
    if total < PUD:
        return
    share, held = -(-total // len(nodes)), 0
    for node in nodes:
        size = single.get(node.number, 0) if single else min(share, total - held)
        if not size:
            continue
        size = up(size, PUD)
        place = place_area(free, memory, Asked(size, 0, 0), node.memory)
        if place:
            held += size
            what = f"hugetlb_cma= of node {node.number}"
            yield (place, place + size), what, "hugetlb_cma_reserve"
        if held >= total:
            return
