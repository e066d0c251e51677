"""Reads texts of reports from files or from a run, and turns them into spans of addresses."""

from __future__ import annotations

from typing import Iterable, Mapping, NamedTuple

from bootmem_tools import grammar
from bootmem_tools.ranges import FRAME, SECTION, Range, joined
from bootmem_tools.tool import BEHIND, LONGEST, Kind, Trouble, read_text, shown_name

# The lines of each report, by its name.
Texts = dict[str, list[str]]

RECORD = 24  # bytes of a record in a table of memblock
MEMORY = ("1", "128")  # the types of the map that are memory


class Span(NamedTuple):
    """A line of a report that names a range: the first and last byte, a name for the range, the
    line's kind and fields, and the line itself."""

    first: int
    last: int
    name: str
    kind: str
    fields: dict[str, str]
    line: str


def read_reports(path: str, behind: bool = False) -> Texts:
    """Returns the reports of a file, or of standard input (`-`). `behind` means that the error may
    propose the program's words after `--` instead.

    # Errors
    A Trouble if there is no report in it.
    """
    kind = Kind("text of reports", LONGEST, judge=judge_reports)
    reports = split_reports(read_text(path, behind, kind))
    if not reports:
        raise Trouble(f"{shown_name(path)}: no report of bootmem in it{BEHIND if behind else ''}")
    return reports


def judge_reports(first: bytes) -> str | None:
    """Returns why a text that begins with these bytes has no report, or None if its first line names
    a report or is a line of one."""
    line = first[:4096].split(b"\n")[0].decode("utf-8", "replace")
    is_one = line.startswith("== ") or grammar.report_of(line.rstrip("\r"))
    return None if is_one else "no report of bootmem in it"


def refuse_empty_map(texts: Texts, where: str) -> None:
    """Refuses a report `map` without lines. The program never prints one, so whatever should have written it failed.

    # Errors
    A Trouble that names where the map comes from.
    """
    if texts.get("map") == []:
        raise Trouble(f"{where}: the map is empty: no boot has such a map, so it wasn't written whole")


def split_reports(text: str) -> Texts:
    """Returns the reports of a text by their names, which are in its lines `== NAME`. A single report
    without such a line is recognized by its first line."""
    lines = text.splitlines()
    reports: Texts = {}
    if lines and lines[0].startswith("== "):
        for line in lines:
            if line.startswith("== "):
                current = reports[line[3:]] = []
            else:
                current.append(line)
    elif lines:
        name = grammar.report_of(lines[0])
        if name is not None:
            return {name: lines}
    return reports


def spans(name: str, texts: Iterable[str]) -> list[Span]:
    """Returns the lines of a report that name a range.

    # Errors
    A Trouble if a line isn't of the report's form; it names the line's number.
    """
    found = []
    for line in grammar.read_lines(name, texts):
        ends = range_of(name, line.fields)
        if ends is not None:
            value = value_of(name, line.fields)
            found.append(Span(*ends, value, line.kind, line.fields, line.text))
    return found


def range_of(name: str, fields: Mapping[str, str]) -> Range | None:
    """Returns the first and the last byte that a line with these fields names, or None if it
    names no range."""
    if "first" in fields:
        return int(fields["first"], 16), int(fields["last"], 16)
    if name == "zones":
        return int(fields["start_frame"]) * FRAME, int(fields["end_frame"]) * FRAME - 1
    if name == "blocks":
        place = int(fields["place"], 16)
        return place, place + (FRAME << int(fields["order"])) - 1
    if name == "sections" and "section" in fields:
        section = int(fields["section"])
        return section * SECTION, (section + 1) * SECTION - 1
    if name == "tables":
        place = int(fields["place"], 16)
        return place, place + RECORD * int(fields["room"]) - 1
    return None


def value_of(name: str, fields: Mapping[str, str]) -> str:
    """Returns what a line with these fields says about its range, in a few words."""
    if name == "map":
        return f"type {fields['type']}" if fields["name"] == "other" else fields["name"]
    if name == "owners":
        return fields["owner"]
    if name == "nodes":
        return f"node {fields['node']}"
    if name == "zones":
        return f"node {fields['node']} {fields['zone']}"
    if name == "blocks":
        return f"order {fields['order']}"
    return name


def memory_of(texts: Texts) -> list[Range]:
    """Returns the ranges of memory in the report `map`, with neighbours joined."""
    return joined((run.first, run.last) for run in spans("map", texts["map"])
                  if run.fields["type"] in MEMORY)


def crash_ranges(texts: Iterable[str]) -> list[Range]:
    """Returns the crash area and its low part from the lines of the report `crash`, ascending; the
    list is empty if nothing is claimed."""
    return sorted((span.first, span.last) for span in spans("crash", texts))
