"""Turns reports into values of JSON, for bootmem-json and bootmem-fleet.

docs/FORMATS.md describes the form ("Reports as JSON"). An address or a size in bytes is a string of
0x and 16 digits, as in the reports, since many readers of JSON round numbers above 2^53. Counts are
numbers.
"""

from __future__ import annotations

from typing import Any, Callable, Iterator, Mapping

from bootmem_tools.grammar import FIELDS, Line, read_lines
from bootmem_tools.reports import Texts

# A value of JSON: a text, a number, true or false, null, a list or an object.
Value = Any
Object = dict[str, Value]

# The owners that have a number.
NUMBERED = ("node-data", "root", "usage", "map", "script")


def fields(found: Mapping[str, str]) -> Object:
    """Returns the fields of a line with their values: a number if the field is a count, else a text."""
    return {key: text if key in FIELDS else int(text) for key, text in found.items()}


def owner(text: str) -> Object:
    """Returns an owner's name and number."""
    name, _, number = text.rpartition(" ")
    return {"owner": name, "number": int(number)} if name in NUMBERED else {"owner": text}


def of_rows(lines: Iterator[Line]) -> Value:
    """Returns the fields of each line."""
    return [fields(line.fields) for line in lines]


def of_records(lines: Iterator[Line]) -> Value:
    """Returns the ranges of a table's records in the order of their numbers."""
    return [{"first": line.fields["first"], "last": line.fields["last"]} for line in lines]


def of_options(lines: Iterator[Line]) -> Value:
    """Returns the edits in their order, and what the words ask for on the crash area, the nodes and
    the EFI map."""
    edits: list[Object] = []
    crash: Object = {"ranges": [], "high": None, "low": None}
    answer: Object = {"edits": edits, "crash": crash, "numa_off": False, "add_efi": False}
    for line in lines:
        if line.kind == "numa":
            answer["numa_off"] = True
        elif line.kind == "efi":
            answer["add_efi"] = True
        elif line.kind == "range":
            end = None if line.fields["end"] == "-" else line.fields["end"]
            crash["ranges"].append({**line.fields, "end": end})
        elif line.kind in ("high", "low"):
            crash[line.kind] = line.fields["size"]
        else:
            edits.append({"edit": line.kind, **fields(line.fields)})
    return answer


def of_nodes(lines: Iterator[Line]) -> Value:
    """Returns the verdict with its numbers, the domains, the uncovered frames, and the ranges
    with their nodes."""
    answer: Object = {"numa": None, "domains": [], "uncovered": None, "ranges": []}
    for line in lines:
        if line.kind == "overlap":
            blocks = [int(line.fields["one"]), int(line.fields["other"])]
            answer.update(numa=line.kind, blocks=blocks)
        elif line.kind == "not covered":
            answer.update(numa=line.kind, frames=int(line.fields["frames"]))
        elif line.kind == "numa":
            answer["numa"] = line.fields["name"]
        elif line.kind == "uncovered":
            answer["uncovered"] = int(line.fields["uncovered"])
        else:
            answer["domains" if line.kind == "domain" else "ranges"].append(fields(line.fields))
    return answer


def of_owners(lines: Iterator[Line]) -> Value:
    """Returns the ranges with their owners."""
    return [{**owner(line.fields["owner"]), "first": line.fields["first"],
             "last": line.fields["last"]} for line in lines]


def of_journal(lines: Iterator[Line]) -> Value:
    """Returns the items in their order."""
    answer = []
    for line in lines:
        found = fields(line.fields)
        item: Object = {"item": found.pop("item"), "deed": line.kind}
        if line.kind == "claim":
            item.update(owner(found.pop("owner")))
        if line.kind == "upward":
            item["on"] = found.pop("on") == "on"
        answer.append({**item, **found})
    return answer


def of_crash(lines: Iterator[Line]) -> Value:
    """Returns the crash area or why there is none, and its low part."""
    answer: Object = {"outcome": None}
    low = None
    for line in lines:
        if line.kind == "low":
            low = line.fields
        elif line.kind == "at":
            answer.update(outcome="at", **line.fields)
        else:
            answer["outcome"] = line.fields["name"]
    return {**answer, "low": low}


def of_sections(lines: Iterator[Line]) -> Value:
    """Returns the table of roots, the roots, and the sections."""
    answer: Object = {"roots": None, "root": [], "sections": []}
    for line in lines:
        if line.kind == "roots":
            answer["roots"] = line.fields["place"]
        else:
            answer["root" if line.kind == "root" else "sections"].append(fields(line.fields))
    return answer


def of_script(lines: Iterator[Line]) -> Value:
    """Returns the outcome of each line of a script."""
    answer = []
    for line in lines:
        found = fields(line.fields)
        answer.append({"line": found.pop("line"), "outcome": found.pop("name", line.kind), **found})
    return answer


def of_zonelists(lines: Iterator[Line]) -> Value:
    """Returns whether the distances are used, with the first bad cell, and the list of each
    node."""
    lists: list[Object] = []
    answer: Object = {"slit": None, "lists": lists}
    for line in lines:
        found = fields(line.fields)
        if line.kind == "list":
            zones = [one.split("/") for one in line.fields["zones"].split()]
            parts = [{"node": int(node), "zone": zone} for node, zone in zones]
            lists.append({"node": found["node"], "zones": parts})
        else:
            answer["slit"] = found.pop("name", line.kind)
            answer.update(found)
    return answer


def of_tables(lines: Iterator[Line]) -> Value:
    """Returns the two tables by their names."""
    found = [fields(line.fields) for line in lines]
    return {one.pop("table"): one for one in found}


def of_buddyinfo(lines: Iterator[Line]) -> Value:
    """Returns the free blocks of each zone, by order from 0 on."""
    return [{"node": int(line.fields["node"]), "zone": line.fields["zone"],
             "blocks": [int(one) for one in line.fields["orders"].split()]} for line in lines]


def of_summary(lines: Iterator[Line]) -> Value:
    """Returns the tables' numbers of records and the other counts."""
    answer: Object = {}
    for line in lines:
        found = fields(line.fields)
        if line.kind == "table":
            answer[found.pop("table")] = found
        else:
            answer[found["name"]] = found["count"]
    return answer


# The function that makes each report's value; for a report that isn't here, it is a list of the fields of each line.
MAKERS: dict[str, Callable[[Iterator[Line]], Value]] = {
    "options": of_options, "nodes": of_nodes, "memory": of_records, "reserved": of_records,
    "owners": of_owners, "journal": of_journal, "crash": of_crash, "sections": of_sections,
    "script": of_script, "claims": of_script, "tables": of_tables, "buddyinfo": of_buddyinfo, "pages": of_script,
    "pagesinfo": of_buddyinfo, "zonelists": of_zonelists, "summary": of_summary,
}


def as_object(texts: Texts) -> Object:
    """Returns the reports as one object.

    # Errors
    A Trouble if a report isn't known, or if a line has another form; it names the line's number.
    """
    return {name: MAKERS.get(name, of_rows)(read_lines(name, lines))
            for name, lines in texts.items()}
