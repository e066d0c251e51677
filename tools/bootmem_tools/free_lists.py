"""free-lists: reads the free lists of a real kernel at handover with a debugger under QEMU, and
compares them with bootmem's."""

import argparse
import json
import os
import re
import shutil
import subprocess
import sys
import tempfile
import time
from typing import Any, Dict, Iterable, List, NamedTuple, Optional, Sequence, Tuple

from bootmem_tools import claims_from_log as claims, kernel_lists as lists
from bootmem_tools import inputs, ranges, runner, tool

NAME = "free-lists"
USAGE = """free-lists --vmlinux VMLINUX --output FOLDER [--kernel BASE,SIZE]
                  [--timeout SECONDS] [--program P] -- QEMU WORDS..
       free-lists --compare [--program P] FOLDER.."""
ABOUT = """Boots a kernel under QEMU, stops it with gdb at the first instruction of
memblock_free_all and at its return, and writes what it has into FOLDER: memblock's two tables,
the zones, and every block of every free list (kernel.txt); and inputs of bootmem with which it
makes the kernel's claims on a machine of the same memory (words, script, zp.bin and others).
--compare runs bootmem on such folders and compares block by block and record by record."""
EPILOG = f"""QEMU WORDS.. is the command that boots the machine, without -serial, -S and -gdb: the
tool adds its own. The kernel's line must have memblock=debug nokaslr console=ttyS0 ignore_loglevel
log_buf_len=1M. With early_page_ext no page is set up later than handover; without it, what comes
later is read a second time, where page_alloc_init_late calls buffer_init.

VMLINUX is the kernel with debug symbols, of the very build that QEMU boots (Debian:
linux-image-..-dbg). gdb-add-index makes its reading quick. The tool needs gdb with Python, and
QEMU.

Above the kernel's memory the machine in FOLDER has room of its own in each node, which takes what
bootmem claims by itself and is claimed whole by the script. The image's place is that of the log, or
of --kernel.

{runner.FINDING}

exit status: 0; 1 if something differs without a row of KERNEL.md, or the kernel can't be read;
2 for words that aren't those above.

examples:
  free-lists --vmlinux vmlinux --output lists -- qemu-system-x86_64 -m 1G
      -kernel vmlinuz -append 'memblock=debug nokaslr console=ttyS0'
      -nic none
  free-lists --compare lists"""

MIB = 1 << 20
SECTION = ranges.SECTION


class Machine(NamedTuple):
    """Inputs with which bootmem makes a kernel's claims, as files by their names; and the kernel,
    with the answers from its log added."""

    files: Dict[str, bytes]
    kernel: lists.Kernel


class Span(NamedTuple):
    """A range of memory: its first byte, one past its last, and its node."""

    start: int
    end: int
    node: int


def read_dump(dump: Dict[str, Any]) -> lists.Kernel:
    """The kernel that gdb's part read, in the form of `kernel.txt`.

    # Errors
    Trouble: a page in a list doesn't match the list."""
    if dump["faults"]:
        raise tool.Trouble(
            f"the lists contradict themselves {len(dump['faults'])} times: {dump['faults'][0]}"
        )

    def table(name: str) -> lists.Table:
        """One of memblock's two tables."""
        records = [
            lists.Record(base, base + size - 1, node if 0 <= node < 1024 else None, flags)
            for base, size, flags, node in dump[name]["records"]
        ]
        return lists.Table(dump[name]["place"], dump[name]["room"], records)

    def blocks(name: str) -> List[lists.Listed]:
        """The blocks of one dump of the free lists."""
        return [
            lists.Listed(kind, lists.Block(node, zone, order, frame * lists.FRAME))
            for node, zone, order, kind, frame in dump[name]
        ]

    zones = [lists.Zone(*zone) for zone in dump["zones"]]
    deferred = {int(node): frame * lists.FRAME for node, frame in dump["deferred"].items()}
    late = [
        listed
        for listed in blocks("late")
        if listed.block.place >= deferred.get(listed.block.node, lists.END)
    ]
    return lists.Kernel(
        dump["version"],
        [],
        zones,
        deferred,
        table("memory"),
        table("reserved"),
        blocks("blocks"),
        late,
    )


def lines_of(log: str) -> List[str]:
    """The lines of the last boot of a log, without colours and times."""
    found: List[str] = claims.last_boot(re.sub(r"\x1b\[[0-9;=?]*[A-Za-z]", "", log).splitlines())
    return found


def surplus_at_growth(lines: Sequence[str]) -> List[int]:
    """By how many records the kernel's reserved table is longer than one without nodes, each time that
    it grows after nodes were set.

    The program's table has no nodes. It must be as long as the kernel's when that grows, so that it
    grows at the same claim."""
    last = max(
        (at for at, line in enumerate(lines) if "MEMBLOCK configuration:" in line), default=0
    )
    noded: List[Tuple[int, int, Optional[int]]] = []
    plain: List[Tuple[int, int]] = []
    found = []
    for line in lines[last:]:
        record = claims.RECORD.search(line)
        if record and record.group(1) == "reserved":
            first, end = int(record.group(2), 16), int(record.group(3), 16) + 1
            noded.append((first, end, int(record.group(4)) if record.group(4) else None))
            plain = merged(plain + [(first, end)])
        if "memblock: reserved is doubled" in line:
            found.append(len(noded) - len(plain))
        call = re.search(r"memblock_(reserve|phys_free): \[0x([0-9a-f]+)-0x([0-9a-f]+)\]", line)
        if call:
            first, end = int(call.group(2), 16), int(call.group(3), 16) + 1
            if call.group(1) == "reserve":
                new = cut([(first, end)], [one[:2] for one in noded])
                noded = merged_noded(noded + [(start, stop, None) for start, stop in new])
                plain = merged(plain + [(first, end)])
            else:
                noded = [
                    (start, stop, node)
                    for low, high, node in noded
                    for start, stop in cut([(low, high)], [(first, end)])
                ]
                plain = cut(plain, [(first, end)])
    return found


def merged(ranges: Iterable[Tuple[int, int]]) -> List[Tuple[int, int]]:
    """The ranges, ascending, with those that touch joined. Each is its first byte and the byte past
    its last."""
    return [
        (first, last + 1)
        for first, last in lists.joined((start, end - 1) for start, end in ranges)
    ]


def merged_noded(
    ranges: Iterable[Tuple[int, int, Optional[int]]]
) -> List[Tuple[int, int, Optional[int]]]:
    """The ranges, ascending, with those joined that touch and have the same node."""
    found: List[Tuple[int, int, Optional[int]]] = []
    for start, end, node in sorted(ranges, key=lambda one: one[0]):
        if found and found[-1][1] == start and found[-1][2] == node:
            found[-1] = found[-1][0], end, node
        else:
            found.append((start, end, node))
    return found


def cut(
    ranges: Iterable[Tuple[int, int]], holes: Iterable[Tuple[int, int]]
) -> List[Tuple[int, int]]:
    """The parts of the ranges outside the holes."""
    left = list(ranges)
    for first, end in merged(holes):
        left = [
            part
            for start, stop in left
            for part in ((start, min(stop, first)), (max(start, end), stop))
            if part[0] < part[1]
        ]
    return left


def memory_spans(kernel: lists.Kernel) -> List[Span]:
    """The kernel's memory with its nodes.

    # Errors
    Trouble: a record ends inside a frame. bootmem has such a frame in no node."""
    spans = [
        Span(record.first, record.last + 1, record.node or 0) for record in kernel.memory.records
    ]
    odd = [span for span in spans if span.start % lists.FRAME or span.end % lists.FRAME]
    if odd:
        raise tool.Trouble(
            f"a record of memory ends inside a frame, at {odd[0].start:#x} or {odd[0].end:#x}: "
            "no such machine can be made"
        )
    return spans


def own_room(spans: Sequence[Span], start: int) -> List[Span]:
    """Memory above the kernel's for bootmem's own claims in each node: node data, roots, usage data and
    maps."""
    found = []
    for node in sorted({span.node for span in spans}):
        sections = {
            number
            for span in spans
            if span.node == node
            for number in range(span.start // SECTION, (span.end - 1) // SECTION + 1)
        }
        size = (
            2 * (2 * len(sections) + 8) + 8
        ) * MIB  # at worst each section needs maps of its own
        end = start + -(-(size + size // 32) // SECTION) * SECTION
        found.append(Span(start, end, node))
        start = end
    return found


class Writer:
    """The lines of a script and the answer to each."""

    def __init__(self, image: Tuple[int, int]) -> None:
        self.image = image
        self.number = 0
        self.lines: List[str] = []
        self.answers: List[str] = []

    def put(self, line: str, answer: str = "done") -> None:
        """Appends a line and its answer. The line `sections` has no answer."""
        self.lines.append(line)
        if line != "sections":
            self.answers.append(f"{len(self.lines)}: {answer}")

    def reserve(self, start: int, end: int, freed: bool = False) -> None:
        """Appends lines that claim a range, and free it again if `freed`. They leave out the first MiB
        and the image, which bootmem claims by itself."""
        for first, stop in cut([(max(start, MIB), end)], [self.image]) if end > MIB else []:
            self.number += 1
            self.put(f"reserve {self.number} {first:#x} {stop - first:#x}")
            if freed:
                self.put(f"free {self.number}")

    def claim(self, claim: claims.Claim, spans: Sequence[Span]) -> None:
        """Appends the lines for a claim of the log. The program searches the place of an allocation
        again, unless the place spans several nodes: then it was found before nodes were set."""
        request, place = claim.request, claim.place
        if place is None:
            if request is not None:
                self.number += 1
                self.put(claims.alloc_line(self.number, request), "no gap")
            return
        nodes = {span.node for span in spans if span.start <= place[1] and place[0] < span.end}
        if claim.deed != "alloc" or request is None:
            self.reserve(place[0], place[1] + 1, claim.deed == "free")
        elif request.node is None and len(nodes) > 1:
            self.reserve(place[0], place[1] + 1)
        else:
            self.number += 1
            self.put(claims.alloc_line(self.number, request), f"at {ranges.hex_text(place[0])}")


class Spare(NamedTuple):
    """The program's own memory above the kernel's: room in each node, and single frames above that."""

    room: List[Span]
    frames: List[int]

    def ranges(self) -> List[Tuple[int, int]]:
        """Its ranges, each a first byte and one past the last."""
        whole = [(self.room[0].start, self.room[-1].end)]
        return whole + [(place, place + lists.FRAME) for place in self.frames]


def spare_memory(kernel: lists.Kernel, log: claims.Log, surplus: Sequence[int]) -> Spare:
    """The memory that the program gets above the kernel's. Once claimed, each range of it has a record
    in the program's reserved table. There are enough ranges to make that table as long as the
    kernel's each time that the kernel's grew, by `surplus`.

    # Errors
    Trouble: the kernel's table grew without a surplus, and no record of it ends where the room
    starts."""
    last = [claim.place[1] for claim in log.claims if claim.place is not None]
    top = max([lists.top_of(kernel)] + [place + 1 for place in last])
    room = own_room(memory_spans(kernel), -(-top // SECTION) * SECTION)
    touches = any(record.last + 1 == room[0].start for record in kernel.reserved.records)
    if set(surplus) == {0} and not touches:
        raise tool.Trouble(
            "the reserved table grew without a node in it: no such machine can be made"
        )
    count = max([0] + [one - (not touches) for one in surplus])
    return Spare(room, [room[-1].end + (2 * number + 1) * MIB for number in range(count)])


def make_machine(
    kernel: lists.Kernel, lines: Sequence[str], image: Optional[Tuple[int, int]], program: str
) -> Machine:
    """The inputs with which bootmem makes the claims of this log on a machine with this kernel's
    memory. `image` is the first and the last byte of the kernel's image, or None to take them from
    the log.

    # Errors
    Trouble: the log doesn't have the image, or no such machine can be made."""
    log = claims.read_log(list(lines))
    image = image or claims.image_of(log)
    if image is None:
        raise tool.Trouble(
            "the log doesn't tell where the kernel's image lies: --kernel names the place"
        )
    spans = memory_spans(kernel)
    spare = spare_memory(kernel, log, surplus_at_growth(lines))
    files = machine_files(log, spans, spare)
    words = ["--kernel", claims.kernel_text(image)] + [
        word for name in files if name != "zp.bin" for word in (OPTIONS[name], name)
    ]
    writer = Writer((image[0], image[1] + 1))
    writer.put("sections")
    # the program would refuse a claim that overlaps its own memory table
    table = memory_table(program, files, words + ["zp.bin"])
    early = [(first, last + 1) for first, last in log.reserved]
    for start, end in cut(spare.ranges(), [table]) + early:
        writer.reserve(start, end)
    for claim in log.claims:
        if not claims.low_alone(claim):
            writer.claim(claim, spans)
    files["script"] = claims.text_of(writer.lines)
    files["words"] = claims.text_of([" ".join(words + ["--script", "script", "zp.bin"])])
    kernel = kernel._replace(answers=writer.answers)
    files["kernel.txt"] = lists.kernel_text(kernel).encode()
    return Machine(files, kernel)


OPTIONS = {"e820ext.bin": "--e820ext", "srat.bin": "--srat"}


def machine_files(log: claims.Log, spans: Sequence[Span], spare: Spare) -> Dict[str, bytes]:
    """The zero page of the kernel's memory and of the program's own above it, and, if they are
    needed, an extension and an SRAT."""
    entries = sorted(
        (first, last + 1 - first, 1) for first, last in ranges.joined(log.added or log.memory)
    )
    entries += [(start, end - start, 1) for start, end in spare.ranges()]
    if len(entries) > inputs.ROOM + inputs.EXTENSION_ROOM:
        raise tool.Trouble(
            f"{len(entries)} ranges of memory: zero page and extension have "
            f"{inputs.ROOM + inputs.EXTENSION_ROOM} at most"
        )
    files = {"zp.bin": inputs.zero_page(entries[: inputs.ROOM])}
    if entries[inputs.ROOM :]:
        files["e820ext.bin"] = inputs.extension(entries[inputs.ROOM :])
    nodes = {span.node for span in spans}
    if nodes != {0}:
        own = spare.room[-1].node
        owned = [Span(place, place + lists.FRAME, own) for place in spare.frames]
        blocks = [
            (span.start, span.end - span.start, span.node) for span in [*spans, *spare.room, *owned]
        ]
        files["srat.bin"] = inputs.srat(blocks, range(max(nodes) + 1))
    return files


def memory_table(program: str, files: Dict[str, bytes], words: Sequence[str]) -> Tuple[int, int]:
    """Where the program's own memory table lies on this machine: its first byte and one past
    its last."""
    with tempfile.TemporaryDirectory() as folder:
        write_files(folder, files)
        told = lists.program_runner(program)(["tables"], words, folder)
    place, room, _ = lists.printed_heads(told["tables"])["memory"]
    return place, place + 24 * room


def write_files(folder: str, files: Dict[str, bytes]) -> None:
    """Writes the files into the folder, which is made if there is none."""
    os.makedirs(folder, exist_ok=True)
    tool.write_files({os.path.join(folder, name): data for name, data in files.items()})


def check_needs(qemu: str, vmlinux: str) -> None:
    """Checks that gdb with Python, QEMU and the kernel's symbols are there.

    # Errors
    Trouble: one is missing; its line names it."""
    if shutil.which(qemu) is None:
        raise tool.Trouble(
            f"{qemu}: no program that can be run; QEMU is needed (Debian: qemu-system-x86)"
        )
    if shutil.which("gdb") is None:
        raise tool.Trouble("gdb is needed, and isn't there")
    asked = subprocess.run(
        ["gdb", "-nx", "-batch", "-ex", "python print(6 * 7)"],
        stdout=subprocess.PIPE,
        stderr=subprocess.DEVNULL,
        check=False,
    )
    if asked.stdout.strip() != b"42":
        raise tool.Trouble("gdb is there, but has no Python")
    if not os.path.isfile(vmlinux):
        raise tool.Trouble(f"{vmlinux}: no such file; it is the kernel with debug symbols")


def boot(qemu: Sequence[str], vmlinux: str, timeout: float) -> Tuple[Dict[str, Any], str]:
    """Boots the machine and returns what gdb read and the log of the serial line.

    # Errors
    Trouble: QEMU ends, or gdb doesn't reach its last stop in time."""
    with tempfile.TemporaryDirectory(prefix="free-lists.") as folder:
        stub, output, serial = (os.path.join(folder, name) for name in ("stub", "dump", "log"))
        guest = [
            *qemu,
            "-serial",
            f"file:{serial}",
            "-display",
            "none",
            "-monitor",
            "none",
            "-no-reboot",
            "-chardev",
            f"socket,path={stub},server=on,wait=off,id=stub",
            "-gdb",
            "chardev:stub",
            "-S",
        ]
        with open(os.path.join(folder, "qemu"), "w+b") as said:
            with subprocess.Popen(
                guest, stdin=subprocess.DEVNULL, stdout=said, stderr=said
            ) as emulator:
                try:
                    await_stub(emulator, stub)
                    run_gdb(stub, output, vmlinux, timeout)
                except tool.Trouble as trouble:
                    raise tool.Trouble(f"{trouble}{end_of(emulator, said.name)}") from None
                finally:
                    emulator.kill()
        with open(output, encoding="ascii") as file:
            return json.load(file), tool.read_text(serial)


def end_of(emulator: "subprocess.Popen[bytes]", said: str) -> str:
    """What to add to an error if QEMU has ended by itself: its status and first line."""
    if emulator.poll() is None:
        return ""
    first = tool.read_text(said).strip().splitlines()[:1]
    return f"; QEMU ended with status {emulator.returncode}" + "".join(f": {one}" for one in first)


def await_stub(emulator: "subprocess.Popen[bytes]", stub: str) -> None:
    """Waits until QEMU has made its stub.

    # Errors
    Trouble: QEMU ends before that, or makes none in a minute."""
    for _ in range(600):
        if os.path.exists(stub):
            return
        if emulator.poll() is not None:
            raise tool.Trouble("QEMU made no stub for gdb")
        time.sleep(0.1)
    raise tool.Trouble("QEMU made no stub for gdb in a minute")


def run_gdb(stub: str, output: str, vmlinux: str, timeout: float) -> None:
    """Runs gdb's part over the stub."""
    script = os.path.join(os.path.dirname(os.path.realpath(__file__)), "free_lists_gdb.py")
    names = dict(os.environ, FREE_LISTS_STUB=stub, FREE_LISTS_OUTPUT=output)
    try:
        done = subprocess.run(
            ["gdb", "-nx", "-batch", "-x", script, vmlinux],
            stdin=subprocess.DEVNULL,
            stdout=subprocess.PIPE,
            stderr=subprocess.STDOUT,
            env=names,
            timeout=timeout,
            check=False,
        )
    except subprocess.TimeoutExpired:
        raise tool.Trouble(
            f"the kernel didn't come to its free lists in {timeout:g} seconds: "
            "does its line have nokaslr, and is "
            f"{vmlinux} of its build? --timeout gives it longer"
        ) from None
    if not os.path.exists(output):
        said = [
            line
            for line in done.stdout.decode("utf-8", "replace").splitlines()
            if line and not line.startswith("[Inferior")
        ]
        raise tool.Trouble(f"gdb read nothing: {said[-1] if said else 'it said nothing'}")


def make_folder(given: argparse.Namespace, qemu: Sequence[str]) -> None:
    """Boots the machine and writes its folder."""
    program = runner.find_program(given.program)
    check_needs(qemu[0], given.vmlinux)
    dump, log = boot(qemu, given.vmlinux, given.timeout)
    lines = lines_of(log)
    if not any("MEMBLOCK configuration:" in line for line in lines):
        raise tool.Trouble(
            "the serial line has no log of memblock: the kernel's line needs memblock=debug "
            "console=ttyS0 ignore_loglevel"
        )
    files, kernel = make_machine(read_dump(dump), lines, given.kernel, program)
    write_files(given.output, files)
    print(
        f"{given.output}: {len(kernel.blocks) + len(kernel.late)} blocks, "
        f"{len(kernel.memory.records) + len(kernel.reserved.records)} records, "
        f"{len(kernel.answers)} claims"
    )


def result_text(result: lists.Result) -> str:
    """One line on what a comparison found."""
    text = f"{result.equal} {result.subject} agree"
    if result.known:
        text += f", {result.known} differ (KERNEL.md, row {result.row})"
    if not result.is_explained():
        first = [f"bootmem alone has {one}" for one in result.ours[:2]] + [
            f"the kernel alone has {one}" for one in result.theirs[:2]
        ]
        text += f", {len(result.ours)} and {len(result.theirs)} differ: " + "; ".join(first)
    return text


def compare_folders(given: argparse.Namespace) -> int:
    """Prints what each folder's comparison finds."""
    run = lists.program_runner(runner.find_program(given.program))
    status = 0
    for folder in given.folders:
        for result in lists.compare_folder(run, folder):
            print(f"{folder}: {result_text(result)}")
            status = status if result.is_explained() else 1
    return status


def read_words(words: List[str], qemu: Optional[List[str]]) -> argparse.Namespace:
    """The tool's words; `qemu` has those after `--`."""
    parser: argparse.ArgumentParser = tool.new_parser(NAME, USAGE, ABOUT, EPILOG)
    parser.add_argument(
        "folders", metavar="FOLDER", nargs="*", help="with --compare: folders that the tool wrote"
    )
    parser.add_argument(
        "--compare", action="store_true", help="compare bootmem with what is in the folders"
    )
    parser.add_argument("--vmlinux", metavar="VMLINUX", help="the kernel with debug symbols")
    parser.add_argument("--output", metavar="FOLDER", help="the folder to write")
    parser.add_argument("--kernel", metavar="BASE,SIZE", help="where the kernel's image lies")
    parser.add_argument(
        "--timeout",
        metavar="SECONDS",
        type=float,
        default=600.0,
        help="how long the boot may take (600)",
    )
    runner.add_program(parser)
    given = parser.parse_args(words)
    if given.compare and (
        given.vmlinux or given.output or given.kernel or qemu or not given.folders
    ):
        parser.error("--compare with folders alone")
    if not given.compare and (not given.vmlinux or not given.output or not qemu or given.folders):
        parser.error(
            "--vmlinux, --output and, after --, QEMU's command; or --compare with folders"
        )
    if given.kernel is not None:
        given.kernel = image_place(parser, given.kernel)
    return given


def image_place(parser: argparse.ArgumentParser, text: str) -> Tuple[int, int]:
    """First and last byte of the image that --kernel names."""
    pair = ranges.parse_pair(text)
    if pair is None:
        parser.error(
            f"{text}: no place of an image: two sizes with a comma between, "
            "such as 0x1000000,0x3400000"
        )
    return pair[0], sum(pair) - 1


def main(words: List[str]) -> int:
    """Does what the words ask for."""
    own, qemu = tool.split_words(words)
    given = read_words(own, qemu)
    if given.compare:
        return compare_folders(given)
    make_folder(given, qemu or [])
    return 0


def command() -> None:
    """Runs the tool as a command."""
    tool.run_tool(NAME, main)


if __name__ == "__main__":
    sys.dont_write_bytecode = True
    command()
