"""Makes columns of reports for bootmem-draw: rows with names and colours, for a picture, a table or
a page."""

from __future__ import annotations

import re
from typing import Iterable, Iterator, NamedTuple

from bootmem_tools import ranges, reports

DRAWN = ["map", "owners", "nodes", "zones", "blocks"]
HEADS = {"map": "map", "owners": "owners", "nodes": "nodes", "zones": "zones", "blocks": "free blocks"}

STRUCTURES = "page structures of section "  # the name that is shown for the owner `map N`

# Light enough for dark text; the two nearest ones stay apart (by 10 in CIELAB) for each kind of
# colour-blindness, too.
BLUE, CYAN, MINT, PEAR = "#9ec5ed", "#b4e9f7", "#72c4ab", "#c2d163"
YELLOW, ORANGE, PINK, GREY = "#faeea0", "#f2a973", "#eda5cd", "#d8d8d8"
COLOURS = {
    "usable": MINT, "usable kernel": MINT, "reserved": GREY, "ACPI data": YELLOW, "ACPI NVS": ORANGE, "unusable": PINK,
    "persistent": PEAR, "persistent legacy": PEAR, "soft reserved": CYAN,
    "kernel": ORANGE, "low-64k": GREY, "low-1m": GREY, "initrd": YELLOW, "soft-reserved": CYAN, "table-memory": PEAR,
    "table-reserved": PEAR, "node-data": CYAN, "crash": PINK, "crash-low": PINK, "roots": MINT, "root": MINT,
    "usage": MINT, "map": BLUE, "script": PEAR,
    "DMA": ORANGE, "DMA32": YELLOW, "Normal": BLUE,
}
NODES = [BLUE, YELLOW, MINT, PINK, CYAN, ORANGE, PEAR]
# If these colours don't suffice, they are used again, this much darker or, if negative, lighter.
SHADES = (0, 0.18, -0.5, 0.32)


class Row(NamedTuple):
    """A row of the picture: its first and last byte, its name, its colour (None for a gap), the text
    of its tool tip, and its whole size if not all of it is drawn."""

    first: int
    last: int
    name: str
    colour: str | None
    tip: str
    whole: int | None = None

    @property
    def size(self) -> int:
        """Returns the bytes of the whole row."""
        return self.last + 1 - self.first if self.whole is None else self.whole


class Column(NamedTuple):
    """A column: its head, and its rows in lanes. The rows of a lane don't overlap."""

    head: str
    lanes: list[list[Row]]


def node_colour(node: int) -> str:
    """Returns the colour of a node. Up to 28 nodes have different colours."""
    shade = SHADES[node // len(NODES) % len(SHADES)]
    parts = bytes.fromhex(NODES[node % len(NODES)][1:])
    to = 0 if shade > 0 else 255
    return "#" + bytes(round(part + (to - part) * abs(shade)) for part in parts).hex()


def colour_of(report: str, span: reports.Span) -> str:
    """Returns the colour of a row, by a node's number, a block's order, or else the row's name."""
    if report == "nodes":
        return node_colour(int(span.fields["node"]))
    if report == "blocks":
        part = int(span.fields["order"]) / 10
        low, high = (238, 245, 252), (139, 184, 228)
        return "#" + "".join(f"{round(a + (b - a) * part):02x}" for a, b in zip(low, high))
    name = span.fields["zone"] if report == "zones" else span.name
    return COLOURS.get(name, COLOURS.get(name.split()[0], GREY))


def joined_blocks(found: Iterable[reports.Span]) -> list[reports.Span]:
    """Returns the blocks, with neighbours of the same order, node and zone joined to one span, whose
    name has the number of blocks."""
    runs: list[list[reports.Span]] = []
    for span in found:
        before = runs[-1][-1] if runs else None
        if before and before.last + 1 == span.first and all(before.fields[key] == span.fields[key] for key in ("order", "node", "zone")):
            runs[-1].append(span)
        else:
            runs.append([span])
    return [run[0]._replace(last=run[-1].last, name=f"{len(run)} \u00d7 order {run[0].fields['order']}") for run in runs]


def name_of(report: str, span: reports.Span) -> str:
    """Returns a row's name. It is the report's own, except that the owner `map N` is called the page
    structures of section N, since it isn't the firmware's map."""
    return re.sub(r"^map (?=\d+$)", STRUCTURES, span.name) if report == "owners" else span.name


def tip_of(report: str, span: reports.Span) -> str:
    """Returns the text of a tool tip: range, size, name and the other fields of the report."""
    more = {"zones": "present {present} free {free} frames", "blocks": "node {node} zone {zone}", "map": "type {type}"}
    text = f"{ranges.range_text(span.first, span.last)}, {ranges.size_text(span.last + 1 - span.first)}: {name_of(report, span)}"
    return f"{text}, {more[report].format(**span.fields)}" if report in more else text


def lanes_of(rows: Iterable[Row]) -> list[list[Row]]:
    """Returns the rows in lanes. Each is put into the first lane in which it overlaps no row."""
    lanes: list[list[Row]] = []
    for row in sorted(rows):
        for lane in lanes:
            if lane[-1].last < row.first:
                lane.append(row)
                break
        else:
            lanes.append([row])
    return lanes or [[]]


def gaps_of(rows: Iterable[Row]) -> Iterator[Row]:
    """Yields rows without a colour for the addresses from 0 to the last row that are in no row."""
    after = 0
    for row in sorted(rows):
        if row.first > after:
            yield Row(after, row.first - 1, "gap", None, f"{ranges.range_text(after, row.first - 1)}: nothing in the map")
        after = max(after, row.last + 1)


def columns_of(texts: reports.Texts) -> list[Column]:
    """Returns the columns of the reports that are drawn, in their order."""
    columns = []
    for report in DRAWN:
        if report in texts:
            found = reports.spans(report, texts[report])
            found = joined_blocks(found) if report == "blocks" else found
            rows = [Row(span.first, span.last, name_of(report, span), colour_of(report, span), tip_of(report, span)) for span in found]
            rows += list(gaps_of(rows)) if report == "map" else []
            columns.append(Column(HEADS[report], lanes_of(rows)))
    return columns
