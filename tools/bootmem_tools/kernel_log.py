"""Reads a boot's inputs from a kernel's log: the firmware's map, the descriptors of UEFI firmware,
the initrd, the command line, the kernel's image and its release. Reads lists of entries, too.

It also turns the log's lines on memory into texts of bootmem's reports. No rule of bootmem computes
these: a text has what the log's lines have, with the edits that the log names."""

from __future__ import annotations

import re
from typing import Iterator, Sequence

from bootmem_tools import claims_from_log as claims
from bootmem_tools import log_srat, ranges, tool
from bootmem_tools.inputs import Entry, Initrd
from bootmem_tools.ranges import Range

TYPES = {"usable": 1, "reserved": 2, "ACPI data": 3, "ACPI NVS": 4, "unusable": 5, "soft reserved": 0xEFFFFFFF}
# Lines of a log, each with its number from 1 on.
Numbered = list[tuple[int, str]]
# A descriptor: its type, address, pages and attributes.
Descriptor = tuple[int, int, int, int]
HEAD = "BIOS-provided physical RAM map:"
BEGUN = re.compile(r"Linux version \d|\bCommand line: ")
SPAN = r"\[mem 0x([0-9a-f]+)-0x([0-9a-f]+)\]"
ENTRY = rf"{SPAN} (.+)"
DESCRIPTOR = r"efi: mem(\d+): \[(.+?)\] range=\[0x([0-9a-f]+)-0x([0-9a-f]+)\]"
UEFI = re.compile(r"\befi: EFI v\d|\] efi_memblock_x86_reserve_range")
# Types and attributes of descriptors by the names that the kernel prints (efi_md_typeattr_format;
# UEFI, section 7.2.3).
EFI_TYPES = ("Reserved", "Loader Code", "Loader Data", "Boot Code", "Boot Data", "Runtime Code", "Runtime Data", "Conventional",
             "Unusable", "ACPI Reclaim", "ACPI Mem NVS", "MMIO", "MMIO Port", "PAL Code", "Persistent")
ATTRIBUTES = {"UC": 0x1, "WC": 0x2, "WT": 0x4, "WB": 0x8, "UCE": 0x10, "WP": 0x1000, "RP": 0x2000, "XP": 0x4000, "NV": 0x8000,
              "MR": 0x10000, "RO": 0x20000, "SP": 0x40000, "CC": 0x80000, "RUN": 1 << 63}
# The heads of the maps that a kernel prints, with the beginning of their lines.
MAPS = (
    (HEAD, "BIOS-e820:"),
    ("extended physical RAM map:", "reserve setup_data:"),
    ("user-defined physical RAM map:", "user:"),
)
UPDATE = re.compile(rf"e820: update {SPAN} (.+) ==> (.+)$")
REMOVE = re.compile(rf"e820: remove {SPAN}(?: (.+))?$")
# Types by number, as the report `map` has them.
NAMES = {number: name for name, number in TYPES.items()}
NAMES |= {7: "persistent (type 7)", 12: "persistent (type 12)"}
JOIN = re.compile(rf"NUMA: Node (\d+) {SPAN} \+ {SPAN} -> {SPAN}")
FAKED = re.compile(rf"Faking a node at {SPAN}")
RESERVED = re.compile(r"Reserving (\d{1,11})MB of (low )?memory at (\d{1,11})MB for crashkernel")
# A run of the map: its type, its first and its last byte.
Run = tuple[int, int, int]


def type_of(text: str) -> int | None:
    """Returns the number of a type from the name that the kernel prints, or from a number; None if
    the text is neither."""
    match = re.fullmatch(r"(?:persistent \(type (\d+)\)|type (\d+)|(0[xX][0-9a-fA-F]+|\d+))", text)
    if match is None:
        return TYPES.get(text)
    named = match.group(1) or match.group(2)
    number = int(named) if named else ranges.parse_size(match.group(3))
    return number if number is not None and number < 1 << 32 else None


def clean(line: str) -> str:
    """Returns the line without colours and without blanks at its end."""
    return re.sub(r"\x1b\[[0-9;]*[mK]", "", line).rstrip()


def entry_of(number: int, base: int, size: int, name: str) -> Entry:
    """Returns the entry of line `number`, with the checks that the program makes."""
    kind = type_of(name)
    if kind is None:
        raise tool.Trouble(f"line {number}: {tool.quoted(name)} is no type that is known")
    if size < 0 or base + size > ranges.TOP:
        raise tool.Trouble(f"line {number}: a range that ends before it begins, or beyond 2^64 - 1")
    return base, size, kind


def last_boot(lines: Numbered) -> tuple[Numbered, int]:
    """Returns the lines of the last boot of a log, and the number of its boots. The last boot begins
    at the line `Linux version` or `Command line:` before the last `BIOS-provided physical RAM map:`."""
    heads = [place for place, (_, line) in enumerate(lines) if HEAD in line]
    if not heads:
        return lines, 1
    before = heads[-2] + 1 if len(heads) > 1 else 0
    begun = [place for place in range(before, heads[-1]) if BEGUN.search(lines[place][1])]
    named = [place for place in begun if "Linux version" in lines[place][1]]
    return lines[(named or begun[-1:] or heads)[-1]:], len(heads)


def entries_of_log(lines: Numbered) -> list[Entry]:
    """Returns the entries of a log's lines `BIOS-e820`, or, if it has lines `extended`, of the last
    table of these."""
    found: dict[str, list[Entry]] = {"BIOS-e820": [], "extended": []}
    headed = any(HEAD in line for _, line in lines)
    for number, line in lines:
        match = re.search(r"(BIOS-e820|extended): " + ENTRY, line)
        if match is None:
            if re.search(r"(BIOS-e820|extended): \[mem", line):
                raise tool.Trouble(f"line {number}: no whole entry: {tool.quoted(line)}")
            continue
        table, first, last = match.group(1), int(match.group(2), 16), int(match.group(3), 16)
        if found[table] and first <= found[table][-1][0]:
            if table == "BIOS-e820" and not headed:
                raise tool.Trouble(f"line {number}: the addresses don't ascend: of a log with several boots and without "
                                      f"their lines '{HEAD}', hand over one")
            if table == "extended":  # the kernel prints the whole map once for each node of the extension
                found[table] = []
        found[table].append(entry_of(number, first, last + 1 - first, match.group(4)))
    return found["extended"] or found["BIOS-e820"]


def entries_of_list(lines: Numbered) -> list[Entry]:
    """Returns the entries of lines `base size type`. Empty lines and lines that begin with # are
    ignored."""
    entries = []
    for number, line in lines:
        words = line.split(None, 2)
        if not words or words[0].startswith("#"):
            continue
        base, size = (ranges.parse_size(word) for word in (words + ["", ""])[:2])
        if len(words) < 3 or base is None or size is None:
            raise tool.Trouble(f"line {number}: neither 'base size type' nor a log with lines 'BIOS-e820: [mem ..] type'")
        entries.append(entry_of(number, base, size, words[2]))
    return entries


def attributes_of(number: int, names: Sequence[str]) -> int:
    """Returns the attributes of a descriptor from the names that the kernel prints, or from
    `attr=0x..`, which it prints if it has no name for one of them."""
    if len(names) == 1 and names[0].startswith("attr=0x"):
        return int(names[0][7:], 16)
    unknown = [name for name in names if name and name not in ATTRIBUTES]
    if unknown:
        raise tool.Trouble(f"line {number}: {tool.quoted(unknown[0])} is no attribute that is known")
    return sum(ATTRIBUTES[name] for name in names if name)


def efi_type(number: int, name: str) -> int:
    """Returns the number of a descriptor's type from the name that the kernel prints, or from
    `type=N`."""
    match = re.fullmatch(r"type=(\d+)", name)
    if match:
        return int(match.group(1))
    if name not in EFI_TYPES:
        raise tool.Trouble(f"line {number}: {tool.quoted(name)} is no type of a descriptor that is known")
    return EFI_TYPES.index(name)


def descriptors_of_log(lines: Numbered) -> list[Descriptor]:
    """Returns the descriptors of a log's first list `efi: mem00 ..`, each as type, address, pages and
    attributes. There are none if the kernel didn't list them."""
    found: list[Descriptor] = []
    for number, line in lines:
        match = re.search(DESCRIPTOR, line)
        if match is None:
            continue
        index, first, last = int(match.group(1)), int(match.group(3), 16), int(match.group(4), 16)
        if index == 0 and found:
            break
        if index != len(found):
            raise tool.Trouble(f"line {number}: a descriptor is missing before mem{match.group(1)}")
        name, *names = (part.strip() for part in match.group(2).split("|"))
        pages = (last + 1 - first) % (ranges.TOP + 1) // ranges.FRAME  # without pages, the last byte is below the first
        found.append((efi_type(number, name), first, pages, attributes_of(number, names)))
    return found


def initrd_of_log(lines: Numbered) -> Initrd | None:
    """Returns base and size of the initrd from the log's last line RAMDISK, or None. This excludes
    `Allocated new RAMDISK`, the place to which the kernel moved it (relocate_initrd)."""
    found = None
    for _, line in lines:
        match = claims.RAMDISK.search(line)
        if match:
            found = int(match.group(1), 16), int(match.group(2), 16) + 1 - int(match.group(1), 16)
    return found


def line_of_log(lines: Numbered) -> str | None:
    """Returns the command line of the line `Command line:`, or None."""
    found = (re.search(r"\bCommand line: (.*)", line) for _, line in lines)
    return next((match.group(1) for match in found if match), None)


def is_uefi(lines: Numbered) -> bool:
    """Returns whether a log comes from a boot with UEFI firmware (efi_init, efi_memblock_x86_reserve_range)."""
    return any(UEFI.search(line) for _, line in lines)


def release_of_log(lines: Numbered) -> str | None:
    """Returns the kernel's release of the line `Linux version`, or None."""
    found = (re.search(r"Linux version (\d\S*)", line) for _, line in lines)
    return next((match.group(1) for match in found if match), None)


def image_of_log(lines: Numbered) -> str | None:
    """Returns the place of the kernel's image in the form of --kernel, or None if the log doesn't have
    it. A log with memblock=debug does."""
    if not any("MEMBLOCK configuration:" in line for _, line in lines):
        return None
    image = claims.image_of(claims.read_log(line for _, line in lines))
    return claims.kernel_text(image) if image else None


def spans_of(match: re.Match[str], group: int = 1) -> Range:
    """Returns the range whose first byte is this group of a match and whose last byte is the next."""
    return int(match.group(group), 16), int(match.group(group + 1), 16)


def last_map(lines: Sequence[str]) -> tuple[list[Run], int]:
    """Returns the last map that the log prints whole, and the number of the line after it."""
    heads = [
        (number, begin)
        for number, line in enumerate(lines)
        for head, begin in MAPS
        if head in line
    ]
    if not heads:
        return [], 0
    number, begin = heads[-1]
    found: list[Run] = []
    for end, line in enumerate(lines[number + 1 :], number + 1):
        match = re.search(rf"{begin} {ENTRY}$", line)
        if match is None:
            return found, end
        kind = type_of(match.group(3).rstrip())
        found.append((kind if kind is not None else 0, *spans_of(match)))
    return found, len(lines)


def edited(runs: Sequence[Run], span: Range, old: int | None, new: int | None) -> list[Run]:
    """Returns the map after an edit of this span: what has the old type (any type, if it is None)
    gets the new type, or is removed if that is None."""
    found: list[Run] = []
    for kind, first, last in runs:
        low, high = max(first, span[0]), min(last, span[1])
        if low > high or old is not None and kind != old:
            found.append((kind, first, last))
            continue
        found += [(kind, first, low - 1)] if first < low else []
        found += [(new, low, high)] if new is not None else []
        found += [(kind, high + 1, last)] if high < last else []
    return found


def united(runs: Sequence[Run]) -> Iterator[Run]:
    """Yields the runs in order, with those joined that touch and have the same type."""
    held: Run | None = None
    for kind, first, last in sorted(runs, key=lambda run: run[1]):
        if held and held[0] == kind and held[2] + 1 == first:
            held = kind, held[1], last
            continue
        if held:
            yield held
        held = kind, first, last
    if held:
        yield held


def map_text(lines: Sequence[str]) -> str:
    """Returns the report `map`, made from the last map that the log prints and from the edits that
    the log names after it, until the memory of memblock."""
    runs, start = last_map(lines)
    for line in lines[start:]:
        if "MEMBLOCK configuration:" in line:
            break
        match = UPDATE.search(line)
        if match:
            old, new = (type_of(match.group(group)) for group in (3, 4))
            runs = edited(runs, spans_of(match), old, new)
        match = REMOVE.search(line)
        if match:
            kind = type_of(match.group(3)) if match.group(3) else None
            runs = edited(runs, spans_of(match), kind, None)
    return "".join(
        f"{ranges.hex_text(first)}..{ranges.hex_text(last)} {kind} {NAMES.get(kind, 'unknown')}\n"
        for kind, first, last in united(runs)
    )


def memory_records(lines: Sequence[str]) -> list[Range]:
    """Returns the memory records of memblock's last dump."""
    dumps = [number for number, line in enumerate(lines) if "MEMBLOCK configuration:" in line]
    matches = (claims.RECORD.search(line) for line in lines[dumps[-1] if dumps else len(lines) :])
    return [spans_of(one, 2) for one in matches if one and one.group(1) == "memory"]


def memory_text(lines: Sequence[str]) -> str:
    """Returns the report `memory` of memblock's last dump."""
    return "".join(
        f"{number:4}: {ranges.hex_text(first)}..{ranges.hex_text(last)}\n"
        for number, (first, last) in enumerate(memory_records(lines))
    )


def nodes_text(lines: Sequence[str]) -> str:
    """Returns the report `nodes` if the log has no SRAT or the kernel used it; else an empty text.

    The log doesn't name the domain of a generic initiator, so the text is also empty if a node has
    no domain."""
    faked = [match for match in map(FAKED.search, lines) if match]
    blocks = [match for match in map(log_srat.MEMORY.search, lines) if match]
    if faked:
        if blocks:
            return ""
        first, last = spans_of(faked[0])
        return f"numa absent\nuncovered 0\n{node_line(0, first, last)}"
    domains = {int(match.group(1)): int(match.group(2)) for match in blocks}
    for line in lines:
        match = log_srat.PROCESSOR.search(line)
        if match:
            domains[int(match.group(3))] = int(match.group(1))
    if not blocks or sorted(domains) != list(range(len(domains))):
        return ""
    named = "".join(f"domain {domains[node]} node {node}\n" for node in sorted(domains))
    spans = node_spans(lines, [(int(one.group(1)), *spans_of(one, 3)) for one in blocks])
    return f"numa used\n{named}uncovered 0\n" + "".join(node_line(*span) for span in spans)


def node_line(node: int, first: int, last: int) -> str:
    """Returns a node's line of the report `nodes`."""
    return f"node {node} {ranges.hex_text(first)}..{ranges.hex_text(last)}\n"


def node_spans(lines: Sequence[str], blocks: Sequence[Run]) -> list[Run]:
    """Returns the blocks of the SRAT by node, joined as the log says."""
    found = list(blocks)
    for line in lines:
        match = JOIN.search(line)
        if match:
            node, (first, last) = int(match.group(1)), spans_of(match, 6)
            rest = [one for one in found if one[0] != node or one[2] < first or last < one[1]]
            found = rest + [(node, first, last)]
    return sorted(found, key=lambda one: one[1])


def crash_text(lines: Sequence[str]) -> str:
    """Returns the report `crash` if the log says where the area lies, which it does in whole MiB; else an empty text
    (reserve_crashkernel, reserve_crashkernel_low)."""
    found: dict[str, str] = {}
    for match in filter(None, map(RESERVED.search, lines)):
        size, first = int(match.group(1)) << 20, int(match.group(3)) << 20
        if size:
            found["low" if match.group(2) else "at"] = f"{ranges.hex_text(first)}..{ranges.hex_text(first + size - 1)}"
    return "".join(f"crash {name} {found[name]}\n" for name in ("at", "low") if name in found) if "at" in found else ""


def reports_of_log(lines: Sequence[str]) -> dict[str, list[str]]:
    """Returns what the last boot of a log says about memory, as lines of reports by their names."""
    last = [line for _, line in last_boot([(number, clean(line)) for number, line in enumerate(lines, 1)])[0]]
    texts = {"map": map_text(last), "memory": memory_text(last), "nodes": nodes_text(last), "crash": crash_text(last)}
    return {name: text.splitlines() for name, text in texts.items() if text}
