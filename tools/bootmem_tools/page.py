"""Makes the page of bootmem-draw --html: the rows of one boot or of two, and the changes between
them, put into the text of page.html, which is next to this module.

A page has many rows, so their form is short. A row is the distance from the row before it, its
size, and the number of its kind, all in hexadecimal; if its pieces are numbered, also the number of
the first one and the step to the next. Neighbouring pieces of the same kind, such as free blocks of
one order or the page structures of sections, make one row.
"""

from __future__ import annotations

import json
import os
from typing import Iterable, Iterator, NamedTuple, Sequence

from bootmem_tools import diff, reports
from bootmem_tools.columns import DRAWN, HEADS, colour_of, name_of
from bootmem_tools.grammar import read_lines
from bootmem_tools.objects import NUMBERED
from bootmem_tools.ranges import FRAME

PATH = os.path.join(os.path.dirname(os.path.abspath(__file__)), "page.html")
NONE = -1  # in place of a number, for pieces without numbers


class Kind(NamedTuple):
    """What rows of the same kind have in common: label, colour, further text from the report, and
    the bytes of a piece, or 0."""

    label: str
    colour: str
    more: str
    piece: int


class Run(NamedTuple):
    """A row: its first and last byte, its kind, the number of its first piece, and the step to
    the next piece's."""

    first: int
    last: int
    kind: Kind
    number: int
    step: int


def block_runs(texts: Iterable[str]) -> Iterator[Run]:
    """Yields the rows of the report `blocks`, of which there may be millions."""
    kinds: dict[tuple[str, str, str], Kind] = {}
    for line in read_lines("blocks", texts):
        node, zone, order, place = line.fields.values()
        kind = kinds.get((node, zone, order))
        if kind is None:
            colour = colour_of("blocks", reports.Span(0, 0, "", line.kind, line.fields, line.text))
            more = f"node {node} zone {zone}"
            kind = Kind(f"order {order}", colour, more, FRAME << int(order))
            kinds[node, zone, order] = kind
        first = int(place, 16)
        yield Run(first, first + kind.piece - 1, kind, NONE, 0)


def runs_of(report: str, texts: Iterable[str]) -> Iterator[Run]:
    """Yields the rows of a report."""
    if report == "blocks":
        return block_runs(texts)
    return (run_of(report, span) for span in reports.spans(report, texts))


def run_of(report: str, span: reports.Span) -> Run:
    """Returns the row of one line of a report."""
    size, fields, number = span.last + 1 - span.first, span.fields, NONE
    label, more, piece = name_of(report, span), "", 0
    if report == "map":
        more = f"type {fields['type']}"
    elif report == "zones":
        more = f"present {fields['present']}, free {fields['free']} frames"
    elif report == "owners" and fields["owner"].rpartition(" ")[0] in NUMBERED:
        label, _, text = label.rpartition(" ")
        number, piece = int(text), size
    return Run(span.first, span.last, Kind(label, colour_of(report, span), more, piece), number, 0)


def step_to(before: Run, run: Run) -> int | None:
    """Returns the step between the numbers of the row before and of a piece that continues it, or
    None if the piece has another kind, isn't adjacent, or hasn't the next number."""
    if before.kind != run.kind or not run.kind.piece or before.last + 1 != run.first:
        return None
    count = (before.last + 1 - before.first) // run.kind.piece
    step = before.step if count > 1 else run.number - before.number
    is_next = run.number == before.number + count * step
    return step if is_next and (run.number == NONE or abs(step) == 1) else None


def joined(runs: Iterable[Run]) -> list[Run]:
    """Returns the rows, ascending. Neighbouring pieces of the same kind become one row if their
    numbers go up or down by one, or if they have no numbers.

    The lines of owners and blocks ascend, so neighbouring pieces are neighbours there. Other reports
    have no pieces.
    """
    found: list[Run] = []
    for run in runs:
        before = found[-1] if found else None
        step = step_to(before, run) if before else None
        if before and step is not None:
            found[-1] = before._replace(last=run.last, step=step)
        else:
            found.append(run)
    return sorted(found, key=lambda one: (one.first, one.last))


def lanes_of(runs: Iterable[Run]) -> list[list[Run]]:
    """Returns the rows in lanes, each without rows that overlap."""
    lanes: list[list[Run]] = []
    for run in runs:
        lane = next((lane for lane in lanes if lane[-1].last < run.first), None)
        if lane is None:
            lanes.append([run])
        else:
            lane.append(run)
    return lanes


def lane_text(lane: Iterable[Run], kinds: dict[Kind, int]) -> str:
    """Returns the rows of a lane, separated by commas. A kind gets its number with its first row."""
    rows, after = [], 0
    for run in lane:
        kind = kinds.setdefault(run.kind, len(kinds))
        numbers = "" if run.number == NONE else f" {run.number:x} {run.step + 1:x}"
        rows.append(f"{run.first - after:x} {run.last + 1 - run.first:x} {kind:x}{numbers}")
        after = run.last + 1
    return ",".join(rows)


def changes_of(boots: Sequence[reports.Texts]) -> dict[str, list[list[str]]]:
    """Returns the changes between two boots by report: first and last byte, and what was there before
    and after."""
    if len(boots) < 2:
        return {}
    both = [report for report in DRAWN if all(report in texts for texts in boots)]
    return {report: [[f"{first:x}", f"{last:x}", was, now] for first, last, was, now in
                     diff.changes(report, boots[0][report], boots[1][report])] for report in both}


def page(boots: Sequence[tuple[str, reports.Texts]], title: str | None) -> str:
    """Returns the page of one boot or of two, each with its name."""
    kinds: dict[Kind, int] = {}
    columns = []
    for report in DRAWN:
        for number, (_, texts) in enumerate(boots):
            if report in texts:
                lanes = lanes_of(joined(runs_of(report, texts[report])))
                columns.append({"report": report, "head": HEADS[report], "boot": number,
                                "lanes": [lane_text(lane, kinds) for lane in lanes]})
    held = {"title": title or "reports of bootmem", "boots": [name for name, _ in boots],
            "columns": columns,
            "kinds": [[kind.label, kind.colour, kind.more, f"{kind.piece:x}"] for kind in kinds],
            "changes": changes_of([texts for _, texts in boots])}
    with open(PATH, encoding="utf-8") as file:
        text = file.read()
    # "</" would end the script's text on the page, wherever it is
    data = json.dumps(held, separators=(",", ":"), ensure_ascii=True).replace("<", "\\u003c")
    return text.replace("@DATA@", data)
