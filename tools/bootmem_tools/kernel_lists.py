"""Reads the free lists and memblock's tables that a debugger got from a kernel, and compares them
with bootmem's reports.

The module free_lists writes a folder with the file `kernel.txt`. `read_kernel` reads this file, and
`compare_boot` and `compare_machine` compare it with what the program prints. docs/FORMATS.md
describes its form. Addresses are in bytes, zones in frames. Nothing here is proved."""

import os
import re
import struct
import tempfile
from typing import Callable, Dict, Iterable, List, NamedTuple, Optional, Sequence, Set, Tuple

from bootmem_tools import ranges, reports, runner, tool

FRAME = ranges.FRAME
END = ranges.TOP + 1  # one past the highest address
BORDERS = {
    "DMA": (0, 1 << 12),
    "DMA32": (1 << 12, 1 << 20),
    "Normal": (1 << 20, 1 << 52),
}  # first frame, and one past the last
BOOT_REPORTS = ["script", "blocks", "zones", "memory", "reserved", "tables"]
MACHINE_REPORTS = ["tables", "zones"]

# The rows of KERNEL.md that explain a difference.
SPLIT_ROW = "`memblock_set_node`"
SPAN_ROW = "`zone_spanned_pages_in_node`"
DEFERRED_ROW = "`deferred_init_memmap`"

_RANGE = r"(0x[0-9a-f]{16})\.\.(0x[0-9a-f]{16})"
_HEAD = re.compile(r"place (initial|0x[0-9a-f]{16}) room (\d+) records (\d+)")
_RECORD = re.compile(_RANGE + r" node (\d+|none) flags (0x[0-9a-f]+)")
_ZONE = re.compile(r"Node (\d+), zone (\w+) start (\d+) end (\d+) present (\d+) managed (\d+)")
_DEFERRED = re.compile(r"node (\d+) from (0x[0-9a-f]{16})")
_RUN = re.compile(
    r"node (\d+) zone (\w+) order (\d+) (\w+) (0x[0-9a-f]{16})"
    r"(?:\.\.(0x[0-9a-f]{16}) step (0x[0-9a-f]+))?"
)


class Record(NamedTuple):
    """One record of a memblock table: its first and last byte, its node or None, and its flags."""

    first: int
    last: int
    node: Optional[int]
    flags: int


class Table(NamedTuple):
    """One of memblock's tables: its address, or None while it is in the kernel's own data; the number
    of records that it has room for; and its records."""

    place: Optional[int]
    room: int
    records: List[Record]


class Zone(NamedTuple):
    """A zone of a node that has frames: its first frame, one past its last, and how many are
    present and managed."""

    node: int
    name: str
    start: int
    end: int
    present: int
    managed: int


class Block(NamedTuple):
    """A free block: its node, zone and order, and its first byte."""

    node: int
    zone: str
    order: int
    place: int


class Listed(NamedTuple):
    """A block in a list of the kernel. Lists of the same order differ by migrate type."""

    kind: str
    block: Block


class Kernel(NamedTuple):
    """The state of a kernel at handover. The answers to the lines of the script come from its log;
    the rest was read by a debugger. Blocks come list by list, each from its head. `deferred` has the
    first byte that is set up later, for each node that has such pages, and `late` has the blocks of
    these pages after that."""

    version: str
    answers: List[str]
    zones: List[Zone]
    deferred: Dict[int, int]
    memory: Table
    reserved: Table
    blocks: List[Listed]
    late: List[Listed]


class Result(NamedTuple):
    """The result of a comparison: how many things both sides have, how many of the kernel's differ
    as a row of KERNEL.md says, and what differs without such a row, on the program's and on the
    kernel's side."""

    subject: str
    equal: int
    known: int = 0
    row: str = ""
    ours: Sequence[str] = ()
    theirs: Sequence[str] = ()

    def is_explained(self) -> bool:
        """Whether each difference has its row."""
        return not self.ours and not self.theirs


def fields_of(form: "re.Pattern[str]", line: str) -> Tuple[str, ...]:
    """The groups of a line of this form.

    # Errors
    Trouble: the line has another form."""
    match = form.fullmatch(line)
    if match is None:
        raise tool.Trouble(f"kernel.txt: not of its form: {line!r}")
    return match.groups()


def read_table(lines: Sequence[str]) -> Table:
    """The table of a section `memory` or `reserved`."""
    if not lines:
        raise tool.Trouble("kernel.txt: a table without lines")
    place, room, count = fields_of(_HEAD, lines[0])
    records = []
    for line in lines[1:]:
        first, last, node, flags = fields_of(_RECORD, line)
        records.append(
            Record(
                int(first, 16),
                int(last, 16),
                None if node == "none" else int(node),
                int(flags, 16),
            )
        )
    if len(records) != int(count):
        raise tool.Trouble(f"kernel.txt: {len(records)} records, and not {count}")
    return Table(None if place == "initial" else int(place, 16), int(room), records)


def read_blocks(lines: Iterable[str]) -> List[Listed]:
    """The blocks of a section `blocks` or `late`: a line is one block, or several of one list
    whose addresses have the same step."""
    found = []
    for line in lines:
        node, zone, order, kind, first, last, step = fields_of(_RUN, line)
        ends = (
            (int(first, 16), int(last, 16), int(step, 16))
            if last
            else (int(first, 16), int(first, 16), 1)
        )
        found += [
            Listed(kind, Block(int(node), zone, int(order), place))
            for place in range(ends[0], ends[1] + 1, ends[2])
        ]
    return found


def parse_kernel(text: str) -> Kernel:
    """The kernel that a `kernel.txt` with this text describes.

    # Errors
    Trouble: a section is missing, or a line isn't of its form."""
    parts: Dict[str, List[str]] = reports.split_reports(text)
    missing = [
        name
        for name in ("kernel", "script", "zones", "memory", "reserved", "blocks")
        if not parts.get(name)
    ]
    if missing:
        raise tool.Trouble(f"kernel.txt: no section {missing[0]}")
    zones = [
        Zone(int(node), name, *map(int, rest))
        for node, name, *rest in (fields_of(_ZONE, line) for line in parts["zones"])
    ]
    deferred = {
        int(node): int(first, 16)
        for node, first in (fields_of(_DEFERRED, line) for line in parts.get("deferred", []))
    }
    return Kernel(
        parts["kernel"][0],
        parts["script"],
        zones,
        deferred,
        read_table(parts["memory"]),
        read_table(parts["reserved"]),
        read_blocks(parts["blocks"]),
        read_blocks(parts.get("late", [])),
    )


def read_kernel(folder: str) -> Kernel:
    """The kernel that `kernel.txt` of the folder describes."""
    return parse_kernel(tool.read_text(os.path.join(folder, "kernel.txt")))


def table_lines(table: Table) -> List[str]:
    """The lines of a table's section."""
    place = "initial" if table.place is None else ranges.hex_text(table.place)
    lines = [f"place {place} room {table.room} records {len(table.records)}"]
    for first, last, node, flags in table.records:
        lines.append(
            f"{range_text((first, last))} node {'none' if node is None else node} flags {flags:#x}"
        )
    return lines


def block_lines(blocks: Sequence[Listed]) -> List[str]:
    """The lines of a section of blocks; three or more of one list whose addresses rise by one
    step share a line."""
    lines, at = [], 0
    while at < len(blocks):
        kind, (node, zone, order, place) = blocks[at]
        end = run_end(blocks, at)
        line = f"node {node} zone {zone} order {order} {kind} {ranges.hex_text(place)}"
        if end - at >= 3:
            step = blocks[at + 1].block.place - place
            line += f"..{ranges.hex_text(blocks[end - 1].block.place)} step {step:#x}"
            at = end
        else:
            at += 1
        lines.append(line)
    return lines


def run_end(blocks: Sequence[Listed], start: int) -> int:
    """The index past the last block of the run that begins at `start`. A run is in one list, and its
    addresses rise by one step."""
    end = start + 1
    step = 0
    while end < len(blocks):
        before, this = blocks[end - 1], blocks[end]
        rise = this.block.place - before.block.place
        if (
            (this.kind, this.block[:3]) != (before.kind, before.block[:3])
            or rise <= 0
            or step not in (0, rise)
        ):
            break
        step = rise
        end += 1
    return end


def kernel_text(kernel: Kernel) -> str:
    """The text of a `kernel.txt`."""
    parts: Dict[str, List[str]] = {
        "kernel": [kernel.version],
        "script": kernel.answers,
        "zones": [
            f"Node {zone.node}, zone {zone.name} start {zone.start} end {zone.end} "
            f"present {zone.present} managed {zone.managed}"
            for zone in kernel.zones
        ],
        "deferred": [
            f"node {node} from {ranges.hex_text(first)}"
            for node, first in sorted(kernel.deferred.items())
        ],
        "memory": table_lines(kernel.memory),
        "reserved": table_lines(kernel.reserved),
        "blocks": block_lines(kernel.blocks),
        "late": block_lines(kernel.late),
    }
    return "".join(
        f"== {name}\n" + "".join(f"{line}\n" for line in lines)
        for name, lines in parts.items()
        if lines
    )


def top_of(kernel: Kernel) -> int:
    """The byte past the last one in either table of the kernel. Only the program has memory above."""
    return 1 + max(
        record.last for table in (kernel.memory, kernel.reserved) for record in table.records
    )


def joined(ranges: Iterable[Tuple[int, int]]) -> List[Tuple[int, int]]:
    """The ranges, ascending, with those that touch or overlap as one; each is its first and
    last byte."""
    found: List[Tuple[int, int]] = []
    for first, last in sorted(ranges):
        if found and first <= found[-1][1] + 1:
            found[-1] = found[-1][0], max(found[-1][1], last)
        else:
            found.append((first, last))
    return found


def range_text(found: Tuple[int, int]) -> str:
    """A range as the reports print it."""
    return f"{ranges.hex_text(found[0])}..{ranges.hex_text(found[1])}"


def block_text(block: Block) -> str:
    """A block as the report `blocks` prints it."""
    return (
        f"node {block.node} zone {block.zone} order {block.order} {ranges.hex_text(block.place)}"
    )


def matched(subject: str, ours: Iterable[str], theirs: Iterable[str]) -> Result:
    """The comparison of two sets of things, each named by its text."""
    mine, other = set(ours), set(theirs)
    return Result(
        subject, len(mine & other), ours=sorted(mine - other), theirs=sorted(other - mine)
    )


def printed_blocks(lines: Iterable[str]) -> List[Block]:
    """The blocks of the report `blocks`."""
    return [
        Block(int(span.fields["node"]), span.fields["zone"], int(span.fields["order"]), span.first)
        for span in reports.spans("blocks", list(lines))
    ]


def printed_zones(lines: Iterable[str]) -> List[Zone]:
    """The zones of the report `zones`. The kernel calls managed what the report calls free."""
    keys = ("start_frame", "end_frame", "present", "free")
    return [
        Zone(
            int(span.fields["node"]), span.fields["zone"], *(int(span.fields[key]) for key in keys)
        )
        for span in reports.spans("zones", list(lines))
    ]


def printed_records(name: str, lines: Iterable[str], top: int) -> List[Tuple[int, int]]:
    """The ranges of the report `memory` or `reserved`, as far as they lie below `top`."""
    return [
        (span.first, min(span.last, top - 1))
        for span in reports.spans(name, list(lines))
        if span.first < top
    ]


def printed_heads(lines: Iterable[str]) -> Dict[str, Tuple[int, int, int]]:
    """Place, room and number of records of each table, from the report `tables`."""
    return {
        span.fields["table"]: (span.first, int(span.fields["room"]), int(span.fields["records"]))
        for span in reports.spans("tables", list(lines))
    }


def compare_blocks(kernel: Kernel, printed: Sequence[Block]) -> Result:
    """The comparison of the blocks at handover. Of a node whose pages are partly set up later, only
    the blocks below its first deferred byte are compared."""
    top = top_of(kernel)

    def is_early(block: Block) -> bool:
        """Whether the kernel frees the block at handover."""
        return block.place < min(top, kernel.deferred.get(block.node, END))

    return matched(
        "blocks",
        map(block_text, filter(is_early, printed)),
        (block_text(listed.block) for listed in kernel.blocks),
    )


def compare_late(kernel: Kernel, printed: Sequence[Block]) -> Result:
    """The comparison of the blocks of deferred pages. Some frames were in use when the lists were
    read. A block of the program with such a frame isn't compared (`known`), and neither are the
    kernel's blocks inside of it."""
    top = top_of(kernel)
    late = [listed.block for listed in kernel.late]
    free = joined(span_of(block) for block in late)
    deferred = [
        block for block in printed if kernel.deferred.get(block.node, END) <= block.place < top
    ]
    untouched = {block for block in deferred if is_within(block, free)}
    used = joined(span_of(block) for block in deferred if block not in untouched)
    theirs = (block for block in late if block in untouched or not is_within(block, used))
    found = matched("late blocks", map(block_text, untouched), map(block_text, theirs))
    return found._replace(known=len(deferred) - len(untouched), row=DEFERRED_ROW)


def span_of(block: Block) -> Tuple[int, int]:
    """First and last byte of a block."""
    return block.place, block.place + (FRAME << block.order) - 1


def is_within(block: Block, ranges: Sequence[Tuple[int, int]]) -> bool:
    """Whether one of the ranges has the whole block."""
    start, end = span_of(block)
    return any(first <= start and end <= last for first, last in ranges)


def compare_order(kernel: Kernel) -> Result:
    """The check that each list ascends from its head. Only lists of two or more blocks count."""
    lists: Dict[Tuple[int, str, int, str], List[int]] = {}
    for kind, block in kernel.blocks:
        lists.setdefault((block.node, block.zone, block.order, kind), []).append(block.place)
    longer = {name: places for name, places in lists.items() if len(places) > 1}
    bad = [
        f"node {node} zone {zone} order {order} {kind}"
        for (node, zone, order, kind), places in longer.items()
        if places != sorted(places)
    ]
    return Result("lists that ascend", len(longer) - len(bad), theirs=bad)


def compare_zones(
    kernel: Kernel, printed: Iterable[Zone], nodes: Sequence[Tuple[int, int, int]]
) -> Result:
    """The comparison of present and managed frames. `nodes` has the program's memory above the
    kernel's, each a first and last byte and a node; it is subtracted. With deferred pages the
    kernel's managed frames are only those of a part, and aren't compared."""
    top = top_of(kernel)
    extra: Dict[Tuple[int, str], int] = {}
    for first, last, node in nodes:
        for name, (low, high) in BORDERS.items():
            count = min(last + 1, high * FRAME) - max(first, low * FRAME, top)
            if count > 0:
                extra[node, name] = extra.get((node, name), 0) + count // FRAME
    ours = [
        (zone.node, zone.name, zone.present - extra.get((zone.node, zone.name), 0), zone.managed)
        for zone in printed
    ]

    def text(node: int, name: str, present: int, managed: int) -> str:
        """A zone and its numbers of frames, for a comparison."""
        return f"node {node} zone {name} present {present}" + (
            "" if kernel.deferred else f" managed {managed}"
        )

    return matched(
        "zones",
        (text(*zone) for zone in ours if zone[2]),
        (text(zone.node, zone.name, zone.present, zone.managed) for zone in kernel.zones),
    )


def compare_records(name: str, kernel: Kernel, lines: Iterable[str]) -> Result:
    """The comparison of a table's records by their first and last byte. If records of the kernel
    touch, they have different nodes. The border between them lies inside one record of the program,
    whose reserved table has no nodes."""
    table = kernel.reserved if name == "reserved" else kernel.memory
    ours = set(printed_records(name, lines, top_of(kernel)))
    alike = [
        range_text((after.first, after.last))
        for before, after in zip(table.records, table.records[1:])
        if before.last + 1 == after.first and before[2:] == after[2:]
    ]
    theirs = [(record.first, record.last) for record in table.records]
    whole = set(joined(theirs)) if name == "reserved" else set(theirs)
    equal = [record for record in theirs if record in ours]
    split = [
        record
        for record in theirs
        if record not in ours
        and any(first <= record[0] and record[1] <= last for first, last in whole & ours)
    ]
    rest = sorted(whole - ours)
    return Result(
        f"{name} records",
        len(equal),
        len(split),
        SPLIT_ROW if split else "",
        [range_text(record) for record in sorted(ours - whole)],
        [range_text(record) for record in rest] + alike,
    )


def compare_head(name: str, table: Table, head: Tuple[int, int, int]) -> Result:
    """The comparison of a table's room and, if the table has left the kernel's data, of its place."""
    place, room, _ = head
    ours, theirs = [f"{name} room {room}"], [f"{name} room {table.room}"]
    if table.place is not None:
        ours.append(f"{name} place {place:#x}")
        theirs.append(f"{name} place {table.place:#x}")
    return matched("heads of tables", ours, theirs)


def compare_boot(
    kernel: Kernel, told: Dict[str, List[str]], room: Sequence[Tuple[int, int, int]]
) -> List[Result]:
    """The comparison of a kernel with the reports BOOT_REPORTS of the program's boot that makes
    the kernel's claims; `room` has the program's own memory above the kernel's."""
    printed = printed_blocks(told["blocks"])
    results = [
        matched("answers", told["script"], kernel.answers),
        compare_blocks(kernel, printed),
        compare_order(kernel),
        compare_zones(kernel, printed_zones(told["zones"]), room),
    ]
    if kernel.deferred:
        results.append(compare_late(kernel, printed))
    results += [compare_records(name, kernel, told[name]) for name in ("memory", "reserved")]
    return results + [
        compare_head("reserved", kernel.reserved, printed_heads(told["tables"])["reserved"])
    ]


def record_text(record: Record) -> str:
    """A record with all its fields."""
    return f"{range_text((record.first, record.last))} node {record.node} flags {record.flags:#x}"


def compare_machine(
    kernel: Kernel, told: Dict[str, List[str]], records: Sequence[Record]
) -> List[Result]:
    """The comparison of a kernel with the reports MACHINE_REPORTS of the program's boot from the same
    machine's inputs, and with all fields of the records in the program's memory table, including
    node and flags."""
    head = printed_heads(told["tables"])["memory"]
    zones = {(zone.node, zone.name): zone for zone in printed_zones(told["zones"])}
    present = matched(
        "zones",
        (f"node {zone.node} zone {zone.name} present {zone.present}" for zone in zones.values()),
        (f"node {zone.node} zone {zone.name} present {zone.present}" for zone in kernel.zones),
    )
    return [
        matched(
            "memory records with node and flags",
            map(record_text, records),
            map(record_text, kernel.memory.records),
        ),
        compare_head("memory", kernel.memory, head),
        present,
        compare_spans(kernel.zones, zones),
    ]


def compare_spans(theirs: Sequence[Zone], ours: Dict[Tuple[int, str], Zone]) -> Result:
    """The comparison of where zones start and end. A zone of the kernel is its node's span, cut at
    the borders of zones (`known`). A zone of the program goes from the first to the last frame in
    it."""
    equal, known, odd = 0, 0, []
    for zone in theirs:
        mine = ours.get((zone.node, zone.name))
        span = [one for one in ours.values() if one.node == zone.node]
        low, high = BORDERS.get(zone.name, (0, 0))
        if mine is not None and mine[2:4] == zone[2:4]:
            equal += 1
        elif span and zone[2:4] == (
            max(low, min(one.start for one in span)),
            min(high, max(one.end for one in span)),
        ):
            known += 1
        else:
            odd.append(f"node {zone.node} zone {zone.name} start {zone.start} end {zone.end}")
    return Result("spans of zones", equal, known, SPAN_ROW if known else "", theirs=odd)


Run = Callable[[Sequence[str], Sequence[str], str], Dict[str, List[str]]]


def program_runner(program: str) -> Run:
    """A function that runs the program: the reports of these names, for these words, in this
    folder."""
    path = os.path.abspath(program)

    def run(names: Sequence[str], words: Sequence[str], folder: str) -> Dict[str, List[str]]:
        """The reports of these names for these words, with the files of the folder."""
        told: Dict[str, List[str]] = runner.run_program(path, list(names), list(words), folder)
        return told

    return run


def words_in(folder: str) -> List[str]:
    """The program's words for the inputs of this folder."""
    text: str = tool.read_text(os.path.join(folder, "words"))
    return text.split()


def memory_above(run: Run, folder: str, top: int) -> List[Tuple[int, int, int]]:
    """The program's memory above `top`: first byte, last byte and node."""
    words = words_in(folder)
    at = words.index("--script")
    told = run(["nodes", "memory"], words[:at] + words[at + 2 :], folder)
    nodes = [
        (span.first, span.last, int(span.fields["node"]))
        for span in reports.spans("nodes", told["nodes"])
    ]
    if not nodes:
        nodes = [(0, ranges.TOP, 0)]
    found = []
    for first, last in (
        (span.first, span.last) for span in reports.spans("memory", told["memory"])
    ):
        for low, high, node in nodes:
            if max(first, low, top) <= min(last, high):
                found.append((max(first, low, top), min(last, high), node))
    return found


def read_records(run: Run, folder: str) -> List[Record]:
    """The records of the program's memory table, as the bytes of the table are."""
    words = words_in(folder)
    place, _, count = printed_heads(run(MACHINE_REPORTS, words, folder)["tables"])["memory"]
    with tempfile.NamedTemporaryFile("w", suffix=".script") as script:
        script.write("".join(f"peek {place + 24 * number:#x} 24\n" for number in range(count)))
        script.flush()
        answers = run(["script", "tables"], ["--script", script.name] + words, folder)["script"]
    found = []
    for line in answers:
        base, size, flags, node = struct.unpack("<QQII", bytes.fromhex(line.split("bytes ")[1]))
        found.append(Record(base, base + size - 1, node if node < 1024 else None, flags))
    return found


def compare_folder(run: Run, folder: str, machine: Optional[str] = None) -> List[Result]:
    """The comparison of a folder that free-lists wrote, and of the machine whose own inputs lie
    in the folder `machine`."""
    kernel = read_kernel(folder)
    found = compare_boot(
        kernel,
        run(BOOT_REPORTS, words_in(folder), folder),
        memory_above(run, folder, top_of(kernel)),
    )
    if machine is not None:
        found += compare_machine(
            kernel, run(MACHINE_REPORTS, words_in(machine), machine), read_records(run, machine)
        )
    return found


def rows_of(results: Iterable[Result]) -> Set[str]:
    """The rows of KERNEL.md that explain what differs."""
    return {result.row for result in results if result.known}
