"""The words of bootmem, bootmem61 and bootaudit, from the file words.txt next to this module."""

from __future__ import annotations

import os
from typing import NamedTuple

PATH = os.path.join(os.path.dirname(os.path.abspath(__file__)), "words.txt")


def read_words(kind: str) -> dict[str, str]:
    """Returns the words of a kind, each with the rest of its line, in the order of the file."""
    found = {}
    with open(PATH, encoding="utf-8") as file:
        for line in file:
            fields = line.split(None, 2)
            if len(fields) > 1 and fields[0] == kind:
                found[fields[1]] = fields[2].strip() if len(fields) > 2 else ""
    return found


OPTIONS = read_words("option")  # the options of bootmem with the form of their value, empty for a flag
REPORTS = tuple(read_words("report"))
INPUTS = tuple(read_words("input"))
AUDIT_OPTIONS = tuple(read_words("audit"))


class Command(NamedTuple):
    """The words of a program: its name, its options with the form of their value, its reports, and its inputs in the order in which it
    reads them."""

    name: str
    options: dict[str, str]
    reports: tuple[str, ...]
    inputs: tuple[str, ...]


def inputs61() -> tuple[str, ...]:
    """Returns the inputs of bootmem61: those of bootmem, with each of its own after the input that it follows."""
    found = list(INPUTS)
    for name, before in read_words("input61").items():
        found.insert(found.index(before) + 1, name)
    return tuple(found)


BOOTMEM = Command("bootmem", OPTIONS, REPORTS, INPUTS)
BOOTMEM61 = Command("bootmem61", {**OPTIONS, **read_words("option61")}, REPORTS + tuple(read_words("report61")), inputs61())
COMMANDS = {command.name: command for command in (BOOTMEM, BOOTMEM61)}
