"""Makes an ACPI table SRAT from the processors and the ranges of memory that a kernel logged as it
read the table (arch/x86/mm/srat.c, drivers/acpi/numa/srat.c)."""

from __future__ import annotations

import re
from typing import NamedTuple, Sequence

from bootmem_tools import inputs, ranges, tool

# SRAT: PXM 1 -> APIC 0x01 -> Node 1, with four digits or more if the entry is an x2APIC's.
PROCESSOR = re.compile(r"SRAT: PXM (\d{1,10}) -> APIC 0x([0-9a-f]{1,8}) -> Node (\d{1,10})\b")
# ACPI: SRAT: Node 1 PXM 1 [mem 0x80000000-0xbfffffff] hotplug non-volatile
MEMORY = re.compile(
    r"SRAT: Node (\d{1,10}) PXM (\d{1,10}) \[mem 0x([0-9a-f]{1,16})-0x([0-9a-f]{1,16})\]"
    r"( hotplug)?( non-volatile)?"
)
BEGUN = re.compile(r"SRAT: (Node \d+ PXM|PXM \d+ -> APIC)")
LISTED = re.compile(r"ACPI: SRAT 0x[0-9A-Fa-f]+ ")
NODE = re.compile(r"\bNODE_DATA\((\d{1,4})\) allocated|\bInitmem setup node (\d{1,4}) \[")
ENABLED, HOTPLUG, NON_VOLATILE = 1, 2, 4  # flags of a range
APIC_DIGITS = 2  # digits of an APIC id; an x2APIC id has four or more
UNUSABLE = 255  # the first x2APIC id that can only be used in x2APIC mode

# Lines of a log, each with its number from 1 on.
Numbered = Sequence["tuple[int, str]"]


class Found(NamedTuple):
    """The table, or None if the log has none, and the notes on it, one line each."""

    table: bytes | None
    notes: list[str]


class Nodes:
    """The nodes of domains: numbered from 0 on, in the order in which the table names the domains
    (acpi_map_pxm_to_node)."""

    def __init__(self) -> None:
        self.domains: list[int] = []
        self.notes: list[str] = []

    def check(self, number: int, domain: int, node: int) -> None:
        """Adds a note on the first line whose node doesn't follow from the lines before it."""
        if domain not in self.domains:
            self.domains.append(domain)
        place = self.domains.index(domain)
        if place != node and not self.notes:
            self.notes.append(
                f"line {number}: domain {domain} is node {node}, and by the lines before it would "
                f"be node {place}: the log lacks some of the SRAT's entries"
            )


def processor_entry(number: int, match: re.Match[str]) -> bytes:
    """Returns the entry of a processor."""
    domain, apic = check_domain(number, int(match.group(1))), int(match.group(2), 16)
    if len(match.group(2)) <= APIC_DIGITS:
        return inputs.processor_affinity(domain, apic)
    return inputs.x2apic_affinity(domain, apic)


def memory_entry(number: int, match: re.Match[str]) -> bytes:
    """Returns the entry of a range of memory.

    A range without bytes is logged with its last byte below its first. So is a range that goes beyond
    2^64, of which the kernel uses only the domain (numa_add_memblk_to). Both become a range without
    bytes.
    """
    domain = check_domain(number, int(match.group(2)))
    first, last = int(match.group(3), 16), int(match.group(4), 16)
    flags = ENABLED | (HOTPLUG if match.group(5) else 0) | (NON_VOLATILE if match.group(6) else 0)
    size = last + 1 - first if first <= last < ranges.TOP else 0
    return inputs.memory_affinity(first, size, domain, flags)


def check_domain(number: int, domain: int) -> int:
    """Returns the domain if an entry has room for its number.

    # Errors
    A Trouble if it hasn't.
    """
    if domain >= 1 << 32:
        raise tool.Trouble(f"line {number}: no domain has the number {domain}")
    return domain


def read_entries(lines: Numbered) -> tuple[list[bytes], list[str]]:
    """Returns the entries of the lines in their order, and the notes on them.

    # Errors
    A Trouble if a line of an entry isn't whole.
    """
    nodes, entries = Nodes(), []
    for number, line in lines:
        processor, memory = PROCESSOR.search(line), MEMORY.search(line)
        if processor:
            entries.append(processor_entry(number, processor))
            nodes.check(number, int(processor.group(1)), int(processor.group(3)))
        elif memory:
            entries.append(memory_entry(number, memory))
            nodes.check(number, int(memory.group(2)), int(memory.group(1)))
        elif BEGUN.search(line):
            raise tool.Trouble(f"line {number}: no whole entry of an SRAT: {tool.quoted(line)}")
    return entries, nodes.notes


def read_srat(lines: Numbered) -> Found:
    """Returns the SRAT that these lines of one boot list.

    # Errors
    A Trouble if a line of an entry isn't whole.
    """
    text = "\n".join(line for _, line in lines)
    if "SRAT: SRAT not used" in text:
        return Found(None, ["the kernel dropped its SRAT ('SRAT not used'), so none is made"])
    entries, notes = read_entries(lines)
    if not entries:
        why = " (NUMA turned off)" if "NUMA turned off" in text else ""
        lacking = [f"the log lists an SRAT, but none of its entries{why}: no SRAT is made"]
        if not LISTED.search(text):
            nodes = sorted({int(number) for match in NODE.finditer(text) for number in match.groups() if number})
            lacking = []
            if nodes[-1:] > [0]:
                lacking.append(f"the log has node {nodes[-1]}, but no line of an SRAT: none is made, so all memory is on node 0")
        return Found(None, lacking)
    if any(entry[0] == 2 and int.from_bytes(entry[8:12], "little") >= UNUSABLE for entry in entries):
        notes.append(f"x2APIC ids of {UNUSABLE} or more: bootmem-linux takes --x2apic for them")
    return Found(inputs.srat_of(entries), notes)
