"""Reads from a kernel's log the early claims that no input of bootmem has: nodes of setup_data,
ACPI tables, and tables of EFI that the kernel claims before boot services' memory."""

from __future__ import annotations

import os
import re
from typing import Iterator, NamedTuple

from bootmem_tools import tool
from bootmem_tools.direct_map import Span

# EFI tables that the kernel claims before the memory of boot services (efi_memattr_init,
# efi_tpm_eventlog_init), by their names in the log.
EFI_TABLES = ("MEMATTR", "TPMEventLog", "TPMFinalLog")
NODE = re.compile(r"reserve setup_data: \[mem 0x([0-9a-f]{1,16})-0x([0-9a-f]{1,16})\] (.*)")
TABLE = re.compile(
    r"ACPI: Reserving (\S+) table memory at \[mem 0x([0-9a-f]{1,16})-0x([0-9a-f]{1,16})\]"
)
RESERVED = re.compile(
    r"e820: update \[mem 0x([0-9a-f]{1,16})-0x([0-9a-f]{1,16})\] usable ==> reserved"
)
HEAD = "BIOS-provided physical RAM map:"  # a line of each boot's start
EFI_TABLE = re.compile(rf"\b({'|'.join(EFI_TABLES)})=0x([0-9a-f]{{1,16}})\b")


class Told(NamedTuple):
    """What a log has: the pieces into which nodes of setup_data split RAM, ACPI tables by name, the
    addresses of EFI's tables by name, and RAM that became reserved later. `has_log` is false without
    a log."""

    has_log: bool
    pieces: list[Span]
    acpi: list[tuple[str, Span]]
    efi: list[tuple[str, int]]
    reserved: list[Span]


NOTHING = Told(False, [], [], [], [])  # without a log


def read_log(path: str | None) -> Told:
    """Returns what the log in a file has; NOTHING if the path is None."""
    return NOTHING if path is None else told_by(tool.read_text(path, kind=tool.LOG))


def in_folder(folder: str, name: str = "log") -> tuple[Told, list[str]]:
    """Returns what the log in a folder has, or NOTHING if there is none or it lacks the boot's start.
    Also returns a line that says whether the log is used, if there is one.

    # Errors
    A Trouble if it isn't a text.
    """
    path = os.path.join(folder, name)
    if not os.path.isfile(path):
        return NOTHING, []
    text = tool.read_text(path, kind=tool.LOG)
    if HEAD not in text:
        return NOTHING, [f"passed over: {name}: it has no line '{HEAD}', so not the boot's start"]
    return told_by(text), [f"read: {name}: ACPI tables, EFI tables and nodes of setup_data"]


def told_by(text: str) -> Told:
    """Returns what this text of a log has."""
    pieces = [
        (int(first, 16), int(last, 16) + 1)
        for first, last, kind in NODE.findall(text)
        if kind.strip() == "usable"
    ]
    acpi = [
        (name, (int(first, 16), int(last, 16) + 1)) for name, first, last in TABLE.findall(text)
    ]
    efi = [
        (name, int(place, 16))
        for line in text.splitlines()
        if "efi:" in line
        for name, place in EFI_TABLE.findall(line)
    ]
    reserved = [(int(first, 16), int(last, 16) + 1) for first, last in RESERVED.findall(text)]
    return Told(True, sorted(pieces), acpi, efi, reserved)


def nodes_of(pieces: list[Span], first_node: int) -> Iterator[Span]:
    """Yields the nodes of setup_data among pieces of RAM, each with its header
    (e820__reserve_setup_data).

    Of pieces that touch, every second one is a node and the others are RAM, since the map joins
    pieces of the same type. Among the pieces with the first node, that node shows which ones are
    nodes; elsewhere the lowest piece is RAM."""
    chain: list[Span] = []
    for piece in [*pieces, (0, 0)]:
        if chain and chain[-1][1] == piece[0]:
            chain.append(piece)
            continue
        known = next((place for place, one in enumerate(chain) if one[0] == first_node), 1)
        yield from chain[known % 2 :: 2]
        chain = [piece]
