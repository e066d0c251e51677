"""The reports' grammar: one table of the lines that each report may have, with their fields.

docs/FORMATS.md describes the forms. All readers of reports use this table. A line is an error if
it matches no row of its report.
"""

from __future__ import annotations

import re
from typing import Iterable, Iterator, NamedTuple

from bootmem_tools.tool import Trouble, quoted

ADDRESS, NUMBER, WORD, TEXT = r"0x[0-9a-f]{16}", r"\d{1,20}", r"\S+", r".+"

# The fields that aren't numbers, each with a regular expression. A field that isn't named here is a number.
FIELDS = {
    **dict.fromkeys(("first", "last", "place", "start", "size", "base", "map", "usage", "limit"),
                    ADDRESS),
    "end": rf"{ADDRESS}|-",
    "name": TEXT,
    "owner": TEXT,
    "zone": WORD,
    "bytes": "[0-9a-f]+",
    "table": "memory|reserved",
    "zones": r"(?: \d+/\w+)*",
    "orders": r"(?: +\d+){11}",
    "on": "on|off",
}
# The numbers that have an upper bound.
BOUNDED = {
    "order": "10|[0-9]",
}

# The rows of each report, by the report's name: the kind of a line, and its form. In a form,
# <first>..<last> and the like are fields, and <field:..> is a field with one of the values after
# the colon; all else is a regular expression. A line has the kind of the first row that it matches.
GRAMMAR = {
    "map": {"run": "<first>..<last> <type> <name>"},
    "options": {
        "add": "add <type> <first>..<last>",
        "remove": "remove <type> <first>..<last>",
        "remove-all": "remove-all <first>..<last>",
        "change": "change <from> <to> <first>..<last>",
        "clear": "clear",
        "numa": "numa off",
        "efi": "efi add",
        "range": "crash range <start> <end> <size> base <base>",
        "high": "crash high <size>",
        "low": "crash low <size>",
    },
    "nodes": {
        "overlap": "numa overlap <one> <other>",
        "not covered": "numa not covered <frames>",
        "numa": "numa <name:[a-z ]+>",
        "domain": "domain <domain> node <node>",
        "uncovered": "uncovered <uncovered>",
        "node": "node <node> <first>..<last>",
    },
    "memory": {"record": " *<record>: <first>..<last>"},
    "reserved": {"record": " *<record>: <first>..<last>"},
    "owners": {"owner": " *<record>: <first>..<last> <owner>"},
    "journal": {
        "mem": "<item>: mem <first>..<last>",
        "trim": "<item>: trim",
        "node": "<item>: node <node> <first>..<last>",
        "claim": "<item>: claim <owner> <first>..<last>",
        "free": "<item>: free <first>..<last>",
        "limit": "<item>: limit <limit>",
        "mirror": "<item>: mirror <first>..<last>",
        "upward": "<item>: upward <on>",
        "grown": "<item>: grown <table> <place> room <room>",
    },
    "crash": {
        "at": "crash at <first>..<last>",
        "low": "crash low <first>..<last>",
        "outcome": "crash <name:none|no area|in use|low failed>",
    },
    "sections": {
        "roots": "roots <place>",
        "root": "root <root> <place>",
        "section": "section <section> node <node> map <map> usage <usage>",
    },
    "zones": {"zone": "Node <node>, zone <zone> start <start_frame> end <end_frame> "
                      "present <present> free <free>"},
    "script": {
        "at": "<line>: at <place>",
        "bytes": "<line>: bytes <bytes>",
        "no gap for table": "<line>: no gap for table <table> room <room>",
        "outcome": "<line>: <name:done|no gap|taken|unknown|not whole|table in use|keep too large|"
                   "fill too large>",
    },
    "tables": {"table": "<table> place <place> room <room> records <records>"},
    "buddyinfo": {"zone": "Node <node>, zone +<zone><orders> "},
    "blocks": {"block": "node <node> zone <zone> order <order> <place>"},
    "pages": {
        "at": "<line>: at <place>",
        "outcome": "<line>: <name:done|no block|taken|unknown>",
    },
    "pagesinfo": {"zone": "Node <node>, zone +<zone><orders> "},
    "zonelists": {
        "not valid": "slit not valid <row> <column>",
        "slit": "slit <name:used|absent|no srat>",
        "list": "Node <node>:<zones>",
    },
    "summary": {
        "table": "<table> records <records> room <room>",
        "count": "<name:runs|usable|free|blocks> <count>",
    },
}


class Line(NamedTuple):
    """A line of a report: its number from 1 on, its kind, the text of each of its fields, and
    the whole text."""

    number: int
    kind: str
    fields: dict[str, str]
    text: str


def compiled(form: str) -> re.Pattern[str]:
    """Returns the regular expression of a form."""
    def field(match: re.Match[str]) -> str:
        """Returns the group for a field."""
        name, _, values = match.group(1).partition(":")
        return f"(?P<{name}>{values or FIELDS.get(name) or BOUNDED.get(name, NUMBER)})"
    return re.compile(re.sub(r"<([a-z_]+(?::[^>]+)?)>", field, form.replace("..", r"\.\.")))


GRAMMAR["claims"] = GRAMMAR["script"]  # a report of bootmem61

ROWS = {name: {kind: compiled(form) for kind, form in rows.items()}
        for name, rows in GRAMMAR.items()}


def read_lines(name: str, texts: Iterable[str]) -> Iterator[Line]:
    """Yields the lines of a report.

    # Errors
    A Trouble if the report isn't known, or if a line matches no row; it names the first such line.
    """
    if name not in ROWS:
        raise Trouble(f"{quoted(name)}: no report of bootmem")
    rows = list(ROWS[name].items())
    for number, text in enumerate(texts, 1):
        for kind, form in rows:
            match = form.fullmatch(text)
            if match:
                yield Line(number, kind, match.groupdict(), text)
                break
        else:
            raise Trouble(f"report {name}: line {number} isn't of its form: {quoted(text)}")


def report_of(text: str) -> str | None:
    """Returns the name of the first report that may have a line like this one, or None."""
    return next((name for name, rows in ROWS.items()
                 if any(form.fullmatch(text) for form in rows.values())), None)
