"""claims-from-log: the early claims of a kernel, from a log with memblock=debug, as inputs of
bootmem."""

from __future__ import annotations

import argparse
import os
import re
import struct
from typing import Iterable, NamedTuple, NoReturn, Optional

from bootmem_tools import inputs, ranges, tool
from bootmem_tools.ranges import Range, common, joined, without

NAME = "claims-from-log"
USAGE = """claims-from-log --e820ext EXT [--over OLD] [--script SCRIPT [--places]]
                       [--kernel BASE,SIZE] [LOG]
       claims-from-log --claims CLAIMS [--script SCRIPT [--places]]
                       [--kernel BASE,SIZE] [LOG]
       claims-from-log --replay FOLDER [--kernel BASE,SIZE] [LOG]"""
ABOUT = """Makes inputs of bootmem from what a kernel logged with memblock=debug on its command line. A kernel claims more than
bootmem does; what it claimed before the crash area becomes an extension, whose entries of type 2 lie over the zero
page and take that memory away, so that the crash area and tables that grow lie where the kernel has them. What it
claimed later becomes a script that begins with `sections`. The words for bootmem are printed."""
EPILOG = """What bootmem claims by itself is left out: the kernel's image, the first MiB, the initrd, soft reserved memory, the data
of nodes, the tables of memblock, the crash area, the sections. Memory is in whole frames: of a frame that was claimed in
part nothing is left. `memmap=exactmap` would forget the extension again.

OLD is the extension that the machine has already; its entries come first. In SCRIPT each claim is a line `alloc` as
the kernel asked for it, so that it finds its place anew where other words move it; with --places it is a line `reserve`
of the place that it had. A line # names the function that asked.

With --claims what was claimed before the crash area becomes a file for bootmem61 instead of an extension: a line
`reserve` for each place, byte for byte and in the log's order. Then no memory is taken away, so nodes and zones stay. A
claim between the nodes' data and the crash area (cma=) is made before the nodes, too, at its place.

--replay writes a whole boot into FOLDER instead: a zero page of the log's memory, an SRAT with its nodes, and every claim
as one script; `words` has the words for bootmem, and `places` the lines of the report script that have a place, as the
kernel's own log has them.

The place of the image is that of the log, or of --kernel. Of a log with several boots the last is taken.

exit status: 0; 1 if the log lacks it; 2 for words that aren't those above.

examples:
  dmesg | claims-from-log --e820ext early.bin --script later
  bootmem --report crash --cmdline cmdline --e820ext early.bin zp.bin
  claims-from-log --claims early log
  bootmem61 --report crash --cmdline cmdline --claims early zp.bin
  claims-from-log --replay again log"""

MIB = ranges.MIB
CRASH_ALIGNS = (16 * MIB, MIB)  # of a crash area without a base, and of one with a base
EXTENSION = tool.Kind("extension", 61456, is_text=False)
NODE_DATA = 0x2B000  # what bootmem claims for the data of a node
SECTION_MAP = 2 * MIB  # bytes of the page structures of a section
ROOM_NUMBER = 1 << 20  # the first number of the script's lines for rooms, above the numbers of claims
HEAD = "BIOS-provided physical RAM map:"
# newer kernels print node and flags, too
CALL = re.compile(r"(memblock_(?:add|reserve|phys_free|free)): \[0x([0-9a-f]+)-0x([0-9a-f]+)\](?: nid=-?\d+)?(?: flags=\w+)? (\w+)")
BEGUN = re.compile(r"memblock_(?:add|reserve|phys_free|free): \[")
REQUEST = re.compile(r"memblock_\w*alloc\w*: (\d+) bytes align=0x([0-9a-f]+)(?: nid=(-?\d+))? from=0x([0-9a-f]+) "
                     r"max_addr=0x([0-9a-f]+) (\w+)")
RECORD = re.compile(r"(memory|reserved)\[0x[0-9a-f]+\]\s+\[0x([0-9a-f]+)-0x([0-9a-f]+)\], 0x[0-9a-f]+ bytes"
                    r"(?: on node (\d+))? flags")
DOUBLED = re.compile(r"memblock: (?:memory|reserved) is doubled to \d+ at \[0x([0-9a-f]+)-0x([0-9a-f]+)\]")
DATA = re.compile(r"NODE_DATA\((\d+)\) allocated \[mem 0x([0-9a-f]+)-0x([0-9a-f]+)\]")
# not "Allocated new RAMDISK: [mem ..]" of relocate_initrd
RAMDISK = re.compile(r"(?<!Allocated new )RAMDISK: \[mem 0x([0-9a-f]+)-0x([0-9a-f]+)\]")
END = re.compile(r"Memory: \d+K/\d+K available")


class Request(NamedTuple):
    """What an allocation asked for. `exact` means that no other node will do."""

    size: int
    align: int
    node: int | None
    low: int
    high: int
    exact: bool


class Claim(NamedTuple):
    """One claim of the log: alloc, reserve or free; its request, if one was logged; its place, or
    None if an alloc found none; and the caller."""

    deed: str
    request: Request | None
    place: Range | None
    caller: str


# The places in a report of a script: the number of its line, and the address or None.
Places = list[tuple[int, Optional[int]]]


class Log:
    """What a log has: the first and the newest dump of memblock, the memory that was added before
    the first one, and the claims after it."""

    def __init__(self) -> None:
        self.added: list[Range] = []
        self.soft: list[Range] = []
        self.before: list[Range] = []
        self.memory: list[Range] = []
        self.reserved: list[Range] = []
        self.noded: list[tuple[int, int, int]] = []
        self.claims: list[Claim] = []
        self.tables: list[Range] = []
        self.data: dict[int, Range] = {}
        self.initrd: Range | None = None


def last_boot(lines: list[str]) -> list[str]:
    """Returns the lines of the last boot of a log."""
    heads = [place for place, line in enumerate(lines) if HEAD in line]
    if len(heads) > 1:
        tool.complain(NAME, f"the log has {len(heads)} boots: the last is taken")
    return lines[heads[-1]:] if heads else lines


def request_of(match: re.Match[str]) -> Request:
    """Returns the request of a line that asks for memory."""
    size, align, node, low, high, _ = match.groups()
    return Request(int(size), int(align, 16), int(node) if node and int(node) >= 0 else None, int(low, 16), int(high, 16),
                   "exact_nid" in match.group(0))


def read_log(lines: Iterable[str]) -> Log:
    """Returns the Log of these lines."""
    log, dumps = Log(), 0
    pending: Claim | None = None
    for line in lines:
        if END.search(line):
            break
        if "MEMBLOCK configuration:" in line:
            dumps += 1
            log.noded = []
        match = RECORD.search(line)
        if match:
            read_record(log, match, dumps)
            continue
        match = REQUEST.search(line)
        if match and dumps:
            settle(log, pending)
            pending = Claim("alloc", request_of(match), None, match.group(6))
            continue
        match = CALL.search(line)
        if match:
            pending = read_call(log, match, dumps, pending)
            continue
        if BEGUN.search(line):
            raise tool.Trouble(f"no whole call of memblock: {tool.quoted(line)}")
        read_fact(log, line)
    settle(log, pending)
    if not log.reserved:
        raise tool.Trouble("no dump of memblock ('MEMBLOCK configuration:') in the log: the kernel makes one with memblock=debug")
    return log


def settle(log: Log, pending: Claim | None) -> None:
    """Keeps a request that is still pending as one that failed, since no place followed it."""
    if pending:
        log.claims.append(pending)


def read_record(log: Log, match: re.Match[str], dumps: int) -> None:
    """Keeps a record of a dump: all of the first dump, and those of memory, with their nodes, of the
    newest one."""
    first, last = int(match.group(2), 16), int(match.group(3), 16)
    if dumps == 1:
        (log.memory if match.group(1) == "memory" else log.reserved).append((first, last))
    elif match.group(1) == "memory" and match.group(4) is not None:
        log.noded.append((first, last, int(match.group(4))))


def read_call(log: Log, match: re.Match[str], dumps: int, pending: Claim | None) -> Claim | None:
    """Keeps a call that names a range. If a request is pending, the range may be its place. Returns
    the request that is still pending then, or None."""
    deed, first, last, caller = match.group(1), int(match.group(2), 16), int(match.group(3), 16), match.group(4)
    if caller == "memblock_double_array":
        return pending
    if dumps == 0:
        if deed == "memblock_add":
            log.added.append((first, last))
        elif deed == "memblock_reserve":
            (log.soft if caller == "e820__memblock_setup" else log.before).append((first, last))
        return None
    if deed == "memblock_reserve" and caller == "memblock_alloc_range_nid":
        log.claims.append((pending or Claim("alloc", None, None, caller))._replace(place=(first, last)))
        return None
    settle(log, pending)
    if deed != "memblock_add":
        log.claims.append(Claim("reserve" if deed == "memblock_reserve" else "free", None, (first, last), caller))
    return None


def read_fact(log: Log, line: str) -> None:
    """Keeps the range of a grown table, of a node's data or of the initrd, if the line has one."""
    match = DOUBLED.search(line)
    if match:
        log.tables.append((int(match.group(1), 16), int(match.group(2), 16)))
    match = DATA.search(line)
    if match:
        place = int(match.group(2), 16), int(match.group(3), 16)
        log.data[int(match.group(1))] = place
        if log.claims and log.claims[-1][1:3] == (None, place):
            size = place[1] + 1 - place[0]
            log.claims[-1] = log.claims[-1]._replace(request=Request(size, 64, int(match.group(1)), 0, 0, False), caller="alloc_node_data")
    match = RAMDISK.search(line)
    if match:
        first, last = int(match.group(1), 16), int(match.group(2), 16)
        log.initrd = first - first % ranges.FRAME, last | ranges.FRAME - 1


def image_of(log: Log) -> Range | None:
    """Returns first and last byte of the kernel's image, or None if the log doesn't show it. The
    image is a reserved range of the first dump without brk, which is at the range's end."""
    for first, last in log.before:
        for low, high in log.reserved:
            if MIB <= low < first and last == high:
                return low, first - 1
    return None


def low_alone(claim: Claim) -> bool:
    """Returns whether a claim lies in the first MiB, which bootmem claims whole."""
    if claim.place is not None:
        return claim.place[1] < MIB
    return claim.request is not None and 0 < claim.request.high <= MIB


def is_crash(claim: Claim) -> bool:
    """Returns whether a claim is for the crash area. Its caller is reserve_crashkernel, or setup_arch
    in a build that inlines it."""
    return claim.caller.startswith("reserve_crashkernel") or (
        claim.caller == "setup_arch" and claim.request is not None and claim.request.align in CRASH_ALIGNS)


def split_claims(log: Log) -> tuple[list[Claim], list[Claim]]:
    """Returns the claims before the crash area, and the claims after it that bootmem doesn't make by
    itself."""
    claims = [claim for claim in log.claims if not low_alone(claim)]
    own = [place for place, claim in enumerate(claims) if is_crash(claim) or claim.caller.startswith("sparse_")]
    edge = own[0] if own else len(claims)
    return claims[:edge], [claim for place, claim in enumerate(claims[edge:], edge) if place not in own]


def early_ranges(log: Log, early: Iterable[Claim], image: Range) -> list[Range]:
    """Returns the memory that was claimed before the crash area and that bootmem doesn't claim
    by itself, in whole frames."""
    held = joined(log.reserved)
    for claim in early:
        if claim.place is None:
            continue
        held = without(held, *claim.place) if claim.deed == "free" else joined(held + [claim.place])
    own = [(0, 0xFFFF), *log.data.values(), *log.tables, *log.soft]
    for first, last in own + [one for one in (image, log.initrd) if one]:
        held = without(held, first, last)
    return common(joined((first - first % ranges.FRAME, last | ranges.FRAME - 1) for first, last in held), log.memory)


def alloc_line(number: int, request: Request) -> str:
    """Returns the script's line for a request."""
    size, align, node, low, high, exact = request
    window = (f" min {low:#x}" if low else "") + (f" max {high:#x}" if high else "")
    return f"alloc {number} {size} {align}{window}" + (f" node {node}" if node is not None else "") + (" exact" if exact else "")


def reserve_line(number: int, place: Range) -> str:
    """Returns the script's line for a range."""
    return f"reserve {number} {place[0]:#x} {place[1] + 1 - place[0]:#x}"


def give_back(number: int, place: Range, live: dict[int, Range]) -> list[str]:
    """Returns the lines that free a range: all of an allocation in `live` or the end of one, or else
    a range of its own."""
    for own, (first, last) in list(live.items()):
        if (first, last) == place:
            del live[own]
            return [f"free {own}"]
        if first < place[0] and last == place[1]:
            live[own] = first, place[0] - 1
            return [f"trim {own} {place[0] - first}"]
    return [reserve_line(number, place), f"free {number}"]


def early_script(log: Log, early: Iterable[Claim], image: Range, live: dict[int, Range]) -> list[str]:
    """Returns the lines of early claims. They reserve each place that was claimed before the crash area, except those that bootmem61
    claims by itself. What they leave claimed is added to `live`."""
    held = joined(log.reserved)
    for first, last in [(0, MIB - 1), image, *log.tables, *log.soft] + ([log.initrd] if log.initrd else []):
        held = without(held, first, last)
    live.update(enumerate(held, 1))
    lines = ["# before memory is added"] + [reserve_line(number, place) for number, place in live.items()]
    return lines + claim_lines([claim for claim in early if claim.caller != "alloc_node_data"], True, live)


def claim_lines(claims: Iterable[Claim], places: bool, live: dict[int, Range]) -> list[str]:
    """Returns the lines of a script for claims. `live` has what earlier lines left claimed, and what these lines leave is added."""
    lines, before = [], None
    for number, claim in enumerate(claims, max(live, default=0) + 1):
        if claim.caller != before:
            lines.append(f"# {claim.caller}")
            before = claim.caller
        if claim.place and claim.deed == "free":
            lines += give_back(number, claim.place, live)
            continue
        if claim.place and (places or claim.request is None):
            lines.append(reserve_line(number, claim.place))
        elif claim.request and not places:
            lines.append(alloc_line(number, claim.request))
        if claim.place:
            live[number] = claim.place
    return lines


def later_script(claims: Iterable[Claim], places: bool, live: dict[int, Range]) -> list[str]:
    """Returns the lines of the script for the claims after the crash area; `live` has what early claims left claimed."""
    return ["sections"] + claim_lines(claims, places, live)


def replay_script(log: Log, image: Range, rooms: Iterable[Range]) -> tuple[list[str], Places]:
    """Returns the lines of a whole boot's script, and the numbers of those that have a place, each
    with the place or None.

    The image is cut out of the first dump's records, since bootmem claims it by itself. The rooms
    are claimed until the kernel's claims are made, and are then free for bootmem's own claims.
    """
    kept = list(enumerate(rooms, ROOM_NUMBER))
    lines = [f"reserve {number} {base:#x} {size - NODE_DATA:#x}" for number, (base, size) in kept]
    places: Places = []
    at_once = [Claim("reserve", None, place, "") for place in without(log.reserved, *image)]
    for number, claim in enumerate(at_once + [claim for claim in log.claims if not low_alone(claim)], 1):
        if claim.request is not None:
            lines.append(alloc_line(number, claim.request))
            places.append((len(lines), claim.place[0] if claim.place else None))
        elif claim.place is not None:
            lines.append(reserve_line(number, claim.place))
            lines += [f"free {number}"] if claim.deed == "free" else []
    return lines + [f"free {number}" for number, _ in kept], places


def own_room(log: Log, node: int) -> int:
    """Returns the bytes that bootmem needs on a node for page structures and usage data of its
    sections and of the room itself."""
    memory = log.memory
    if len(log.data) > 1:
        memory = [(first, last) for first, last, one in log.noded if one == node]
    sections = sum(last // ranges.SECTION - first // ranges.SECTION + 1 for first, last in memory)
    return SECTION_MAP * (sections + sections // 32 + 8)


def own_rooms(log: Log) -> dict[int, Range]:
    """Returns extra memory above all other, a range for each node. All that bootmem claims by itself
    lies there, so that it moves none of the kernel's claims.

    The node's data is at the top of the range, and is claimed before the script. The script claims
    the rest and finally frees it for the sections.
    """
    base = (max(last + 1 for _, last in log.memory) >> 30) + 2 << 30
    found: dict[int, Range] = {}
    for node in sorted(log.data) or [0]:
        found[node] = base, own_room(log, node) + NODE_DATA
        base = (base + found[node][1] >> 30) + 1 << 30
    return found


def replay_files(log: Log, image: Range) -> tuple[dict[str, bytes], list[str]]:
    """Returns the files of a whole boot, and the words for bootmem.

    # Errors
    Trouble: zero page and extension have no room for the log's memory.
    """
    rooms = own_rooms(log)
    entries = sorted([(first, last + 1 - first, 1) for first, last in joined(log.added or log.memory)]
                     + [(first, last + 1 - first, inputs.SOFT_RESERVED) for first, last in log.soft])
    entries += [(base, size, 1) for base, size in rooms.values()]
    if len(entries) > inputs.ROOM + inputs.EXTENSION_ROOM:
        raise tool.Trouble(f"{len(entries)} ranges of memory: zero page and extension have {inputs.ROOM + inputs.EXTENSION_ROOM} at most")
    lines, places = replay_script(log, image, rooms.values())
    words = ["--kernel", kernel_text(image), "--script", "script"]
    files = {"zp.bin": inputs.zero_page(entries[:inputs.ROOM]), "script": text_of(lines),
             "places": text_of(f"{line}: {'no gap' if place is None else 'at ' + ranges.hex_text(place)}" for line, place in places)}
    if len({node for _, _, node in log.noded}) > 1:
        blocks = [(first, last + 1 - first, node) for first, last, node in log.noded]
        files["srat.bin"] = inputs.srat(blocks + [(base, size, node) for node, (base, size) in rooms.items()],
                                        range(max(rooms) + 1))  # one entry per domain, so that domain N is node N
        words += ["--srat", "srat.bin"]
    if entries[inputs.ROOM:]:
        files["e820ext.bin"] = inputs.extension(entries[inputs.ROOM:])
        words += ["--e820ext", "e820ext.bin"]
    words.append("zp.bin")
    files["words"] = text_of([" ".join(words)])
    return files, words


def write_replay(log: Log, image: Range, folder: str) -> None:
    """Writes the files of a whole boot, and prints the words for bootmem."""
    files, words = replay_files(log, image)
    os.makedirs(folder, exist_ok=True)
    tool.write_files({os.path.join(folder, name): data for name, data in files.items()})
    print(" ".join(words))


def text_of(lines: Iterable[str]) -> bytes:
    """Returns the bytes of these lines."""
    return "".join(f"{line}\n" for line in lines).encode()


def kernel_text(image: Range) -> str:
    """Returns the image's range in the form BASE,SIZE that bootmem reads."""
    return f"{image[0]:#x},{image[1] + 1 - image[0]:#x}"


def old_entries(path: str) -> list[inputs.Entry]:
    """Returns the entries of an extension's file."""
    data = tool.read_bytes(path, EXTENSION)
    if len(data) < 16 or struct.unpack_from("<II", data, 8) != (1, len(data) - 16) or (len(data) - 16) % 20:
        raise tool.Trouble(f"{path}: no extension")
    return [(base, size, kind) for base, size, kind in struct.iter_unpack("<QQI", data[16:])]


def extension_of(log: Log, early: Iterable[Claim], image: Range, given: argparse.Namespace) -> bytes:
    """Returns an extension with the entries of the old one, followed by entries that remove the memory of early claims.

    # Errors
    Trouble: an extension has no room for them.
    """
    entries = old_entries(given.over) if given.over else []
    entries += [(first, last + 1 - first, inputs.RESERVED) for first, last in early_ranges(log, early, image)]
    if len(entries) > inputs.EXTENSION_ROOM:
        raise tool.Trouble(f"{len(entries)} entries: an extension has {inputs.EXTENSION_ROOM} at most")
    return inputs.extension(entries)


def write_parts(log: Log, image: Range, given: argparse.Namespace) -> None:
    """Writes the extension or the early claims, and the script, and prints the words for bootmem or bootmem61."""
    early, later = split_claims(log)
    live: dict[int, Range] = {}
    words = ["--kernel", kernel_text(image)]
    if given.claims:
        files = {given.claims: text_of(early_script(log, early, image, live))}
        words += ["--claims", given.claims]
    else:
        files = {given.e820ext: extension_of(log, early, image, given)}
        words += ["--e820ext", given.e820ext]
    if given.script:
        files[given.script] = text_of(later_script(later, given.places, live))
        words += ["--script", given.script]
    tool.write_files(files)
    print(" ".join(words))


def read_words(words: list[str]) -> argparse.Namespace:
    """Returns the tool's words."""
    parser = tool.new_parser(NAME, USAGE, ABOUT, EPILOG)
    parser.add_argument("log", metavar="LOG", nargs="?", default="-", help="the kernel's log; without it standard input")
    parser.add_argument("--e820ext", metavar="EXT", help="the file of the extension: what was claimed before the crash area")
    parser.add_argument("--claims", metavar="CLAIMS", help="the file of early claims for bootmem61: what was claimed before the crash area")
    parser.add_argument("--over", metavar="OLD", help="the extension that the machine has already")
    parser.add_argument("--script", metavar="SCRIPT", help="the file of the script: what was claimed later")
    parser.add_argument("--places", action="store_true", help="the script reserves the places that the log tells")
    parser.add_argument("--replay", metavar="FOLDER", help="write a whole boot into FOLDER")
    parser.add_argument("--kernel", metavar="BASE,SIZE", help="where the kernel's image lies")
    given = parser.parse_args(words)
    parts = (given.e820ext, given.claims, given.over, given.script, given.places or None)
    if given.replay is not None and any(part is not None for part in parts):
        parser.error("--replay and the words of an extension at once")
    if given.replay is None and given.e820ext is None and given.claims is None:
        parser.error("--e820ext with the file of the extension, --claims with that of early claims, or --replay with a folder")
    if given.claims is not None and (given.e820ext is not None or given.over is not None):
        parser.error("--claims and the words of an extension at once")
    if given.places and given.script is None:
        parser.error("--places without --script")
    if given.kernel is not None:
        image = ranges.parse_pair(given.kernel)
        if image is None:
            parser.error(f"{given.kernel}: no place of an image: two sizes with a comma between, such as 0x1000000,0x3400000")
        given.kernel = image[0], sum(image) - 1
    return given


def main(words: list[str]) -> int:
    """Writes the files that the words name."""
    given = read_words(words)
    tool.refuse_over([path for path in (given.e820ext, given.claims, given.script) if path], [given.log, *([given.over] if given.over else [])])
    text = re.sub(r"\x1b\[[0-9;]*[mK]", "", tool.read_text(given.log, kind=tool.LOG))
    lines = last_boot(text.splitlines())
    log = read_log(lines)
    image = given.kernel or image_of(log)
    if image is None:
        image = 16 * MIB, 48 * MIB - 1
        tool.complain(NAME, "the log doesn't tell where the kernel's image lies: 16 MiB to 48 MiB is assumed; --kernel names the place")
    if any("Command line:" in line and "exactmap" in line for line in lines) and given.e820ext is not None:
        tool.complain(NAME, "the command line has exactmap, which forgets the extension's entries, too")
    if given.replay is not None:
        write_replay(log, image, given.replay)
    else:
        write_parts(log, image, given)
    return 0


def command() -> NoReturn:
    """Runs the tool as a command."""
    tool.run_tool(NAME, main)


if __name__ == "__main__":
    command()
