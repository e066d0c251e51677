"""bootmem-crash: which crash area fits on a machine, and where."""

from __future__ import annotations

import argparse
import contextlib
import json
import os
import re
import tempfile
from typing import Iterable, Iterator, NamedTuple, NoReturn, Sequence

from bootmem_tools import (
    as_linux, command_line, crash_sizes, linux_claims, machine, next_step, notes, ranges, reports,
    runner, tool
)
from bootmem_tools.crash_sizes import Found, Greatest, Outcome

NAME = "bootmem-crash"
USAGE = """bootmem-crash [--size SIZE].. [--json] [--kernel BASE,SIZE]
                     [--cmdline FILE] [--e820ext FILE] [--srat FILE]
                     [--slit FILE] [--efi FILE]
                     [--pages 4K|2M|1G] [--brk BYTES] [--x2apic] [--cma]
                     [--log FILE] [--raw] [--program P] FOLDER|ZEROPAGE.."""
ABOUT = """Prints, for a boot of Linux 6.1, the greatest size of crashkernel= that fits on a machine in each form, plain and high, in whole MiB,
and where it would lie; what the machine's own line asks for; and for each SIZE whether it fits, where, or why not: the greatest gap,
and who cuts it."""
EPILOG = f"""FOLDER is what bootmem-collect (collect.sh) gathered of a machine; or a zero page is named, and the other files by the
options, which count before those of FOLDER. SIZE is S, S@BASE, S,high or A-B:S,.. as in crashkernel=; of
ranges the one counts that Linux 6.1 picks by total memory. The tool replaces crashkernel= of the line, except a form S,low, by what it tries.

The inputs are read as that kernel reads them, and what it claims before the area is claimed, as bootmem-linux does;
what was changed or assumed, or can't be known, is said. With --raw the program reads the inputs itself, and nothing
more is claimed than bootmem claims.

{runner.FINDING_RAW}

With several machines, each begins with a line == and its name; --json prints an object for each instead (FORMATS.md of the documents: "Crash areas as
JSON").

exit status: 0 if each SIZE fits (without one: what the line asks for, or anything if it asks for nothing), 1
if one doesn't, 2 for trouble.

examples:
  bootmem-crash --kernel 0x1000000,0x3400000 zp.bin
  bootmem-crash --size 512M --size 1G,high --cmdline cmdline zp.bin
  bootmem-crash --size 1G-4G:192M,4G-:256M --json host*/
  bootmem-crash ."""

MIB = ranges.MIB
ALIGN = 16 << 20  # the area's alignment, and its lowest address (CRASH_ALIGN)
LOW = 1 << 32  # CRASH_ADDR_LOW_MAX
HIGH = 1 << 46  # CRASH_ADDR_HIGH_MAX
MAP = 2 << 20  # bytes of the page structures of a section
# the program's options for files, and the names that a folder has for them
FILES = (("cmdline", "cmdline"), ("e820ext", "e820ext.bin"), ("srat", "srat.bin"), ("slit", "slit.bin"), ("efi", "efi.bin"))

NOTHING = "none of its ranges gives a size for this machine's total memory"
RANGES = re.compile(r"^crashkernel=[^@]*-[^@]*:")  # a size by ranges of total memory

# A claim: its first and last byte, and its owner.
Claim = tuple[int, int, str]


class Tried(NamedTuple):
    """The outcome of a try: the area and its low part, ascending, or why there is none."""

    ranges: list[ranges.Range]
    why: str


class Gap(NamedTuple):
    """A range of memory that is free when the kernel looks for the area: its first and last byte,
    and what lies below and above it."""

    first: int
    last: int
    below: str
    above: str


def read_words(words: list[str]) -> argparse.Namespace:
    """Returns the tool's words."""
    parser = tool.new_parser(NAME, USAGE, ABOUT, EPILOG)
    parser.add_argument("machines", metavar="FOLDER|ZEROPAGE", nargs="+", help="the machines")
    parser.add_argument("--size", metavar="SIZE", action="append", default=[], help="try this size: S, S@BASE, S,high or ranges")
    parser.add_argument("--json", action="store_true", help="one JSON object a line")
    parser.add_argument("--kernel", metavar="BASE,SIZE", help="where the kernel's image lies, as bootmem reads it")
    for option, _ in FILES:
        parser.add_argument(f"--{option}", metavar="FILE", help="as bootmem's")
    as_linux.add_raw(parser)
    as_linux.add_log(parser)
    runner.add_program(parser)
    given = parser.parse_args(words)
    given.settings = as_linux.settings_of(given, parser)
    given.machine = given.machines[0]
    for size in given.size:
        said = command_line.program_plain(size.removesuffix(",high"))
        if said is None or (size.count("@") or ":" in size) and size.endswith(",high") or [one for one in said[0] if not one[2]]:
            parser.error(f"--size {size}: none of S, S@BASE, S,high and ranges A-B:S,.. with a size S above 0")
    return given


class Machine:
    """A machine's boot as Linux makes it, or as the program reads it, without what its line asks for as crash area. Its
    files exist until the context ends.

    `words` are the program's words for the boot without a line. `early` are its early claims by their
    owners in the reports. `said` are the notes on what was changed or assumed."""

    def __init__(self, given: argparse.Namespace) -> None:
        folder = given.machine if os.path.isdir(given.machine) else None
        name = runner.OWN if given.raw else runner.LINUX
        self.program = os.path.abspath(runner.find_program(given.program, name))
        if folder:
            next_step.refuse_pageless(NAME, folder)
        self.page = os.path.join(folder, "zp.bin") if folder else given.machine
        self.kernel = given.kernel or (machine.kernel_in(folder) if folder else None)
        self.progress, self.boots = tool.Progress(NAME), 0
        self.sizes: list[str] = given.size
        lacks = folder is not None and not given.srat and machine.lacks_srat(folder)
        self.next_command = next_step.for_srat(given.machine) if lacks else None
        named = {name: getattr(given, name) or self.beside(folder, file) for name, file in FILES}
        self.is_raw: bool = given.raw
        self.place: str | None = None
        self.files = contextlib.ExitStack()
        if self.is_raw:
            named["slit"] = None  # it moves no memory
        words = [word for name, path in named.items() if path for word in (f"--{name}", path)]
        words += (["--kernel", self.kernel] if self.kernel else []) + [self.page]
        self.said: list[str] = []
        self.early: dict[str, linux_claims.Claim] = {}
        data = command_line.read_file(named["cmdline"]) if named["cmdline"] else b""
        if self.is_raw:
            line = command_line.raw_line(data)
        else:
            prepared = self.files.enter_context(as_linux.prepared(self.program, words, given.settings))
            self.early, self.said = linux_claims.by_owner(prepared.claims), prepared.said
            self.place, words, line = prepared.place, prepared.words, prepared.line
        self.words = without_line(words)
        self.split_line(line)

    def __enter__(self) -> Machine:
        """Returns the machine."""
        return self

    def __exit__(self, *_: object) -> None:
        """Removes its files."""
        self.files.close()

    @staticmethod
    def beside(folder: str | None, name: str) -> str | None:
        """Returns the path of a file of the folder, if it is there."""
        path = os.path.join(folder or "", name)
        return path if folder and os.path.exists(path) else None

    def split_line(self, line: str) -> None:
        """Separates what the line asks for as crash area from the rest of it. A form `S,low` stays in
        the rest."""
        words, end = command_line.words_of(line)
        asking = [word.text for word in words if command_line.program_word(word.text)[0] == "crashkernel"]
        low = [text for text in asking if text.rstrip('"').endswith(",low")]
        self.asked = " ".join(text for text in asking if text not in low)
        self.rest = [word.text for word in words if word.text not in asking] + low
        self.behind = line[end:]

    def run(self, asked: str, names: list[str]) -> tuple[reports.Texts, str | None]:
        """Returns the reports of these names for the line with this added, or why the boot stops."""
        with tempfile.TemporaryDirectory() as work:
            path = os.path.join(work, "line")
            command_line.write_line(path, " ".join(self.rest + ([asked] if asked else []) + [self.behind]))
            return runner.run_or_stop(self.program, names, ["--cmdline", path] + self.words)

    def claimed(self, texts: reports.Texts) -> list[Claim]:
        """Returns the claims at the time when the kernel looks for the area. The owner of an early claim
        is what it is for."""
        return [(first, last, self.early[owner].what if owner in self.early else owner)
                for first, last, owner in claims(texts["journal"])]

    def tried(self, asked: str) -> Tried:
        """Returns the outcome of asking for an area."""
        self.boots += 1
        self.progress.show(f"boot {self.boots}: {asked}")
        texts, stop = self.run(asked, ["crash"])
        self.progress.clear()
        if stop:
            return Tried([], stop)
        found = reports.crash_ranges(texts["crash"])
        return Tried(found, "" if found else texts["crash"][0][len("crash "):])


def without_line(words: Sequence[str]) -> list[str]:
    """Returns the program's words without the option for the line."""
    place = list(words).index("--cmdline") if "--cmdline" in words else len(words)
    return [*words[:place], *words[place + 2:]]


def greatest(own: Machine, texts: reports.Texts, suffix: str, end: int = HIGH,
             first: int = 0) -> tuple[int, Tried]:
    """Returns the greatest number of MiB that fits with this suffix and begins below `end`, and its
    outcome; 0 if none fits.

    The first guess is `first`, or else the greatest gap of the boot without an area. A guess that
    fails is lowered by the memory that the boot lacked after the area's claim. One that fits is
    raised in steps that double. Each guess is tried by a boot, but a few boots are enough.
    """
    fits, fails, best = 0, machine.memory_size(texts) // MIB + 1, Tried([], "")
    found = gaps(reports.spans("memory", texts["memory"]), claims(texts["journal"]), ALIGN, end)
    guess, step = first or max(map(room, found), default=0) // MIB, 1
    while fails - fits > 1:
        guess = min(max(guess, fits + 1), fails - 1)
        tried = own.tried(f"crashkernel={guess}M{suffix}")
        if tried.ranges and tried.ranges[-1][0] < end:
            fits, best = guess, tried
            guess, step = (guess + step, step * 2) if guess + step < fails else ((fits + fails) // 2, step)
        else:
            fails = guess
            lack = lacking(tried.why, texts)
            guess = guess - lack if lack and guess - lack > fits else (fits + fails) // 2
    return fits, best


def lacking(why: str, texts: reports.Texts) -> int:
    """Returns the MiB of the page structures' maps that a boot found no place for, by the section at which it stopped; 0 if it stopped
    elsewhere."""
    match = re.fullmatch(r"stopped: no place for map (\d+)", why)
    if match is None:
        return 0
    first = int(match.group(1)) * ranges.SECTION
    parts = [(max(low, first), high) for low, high in reports.memory_of(texts) if high >= first]
    sections = {one for low, high in parts for one in (low // ranges.SECTION, high // ranges.SECTION)}
    between = sum(max(0, high // ranges.SECTION - low // ranges.SECTION - 1) for low, high in parts)
    return (len(sections) + between) * MAP // MIB


def claims(lines: Iterable[str]) -> list[Claim]:
    """Returns the claims at the time when the kernel looks for the area, ascending. These are the
    journal's claims before those of the sections."""
    found: list[Claim] = []
    for item in reports.spans("journal", lines):
        if item.fields.get("owner") == "roots":
            break
        if item.kind in ("claim", "free"):
            found = [part for one in found for part in parts_outside(one, item)]
        if item.kind == "claim":
            found.append((item.first, item.last, item.fields["owner"]))
    return sorted(found)


def parts_outside(one: Claim, item: reports.Span) -> Iterator[Claim]:
    """Yields the parts of a claim outside a range."""
    first, last, owner = one
    if first < item.first:
        yield first, min(last, item.first - 1), owner
    if item.last < last:
        yield max(first, item.last + 1), last, owner


def gaps(memory: Iterable[reports.Span], claimed: Iterable[Claim], low: int,
         high: int) -> Iterator[Gap]:
    """Yields the gaps of memory from `low` on and below `high`."""
    memory, claimed = list(memory), list(claimed)
    starts, ends = {record.first for record in memory}, {record.last + 1 for record in memory}
    for record in memory:
        cuts = [(first, last, owner) for first, last, owner in claimed if first <= record.last and record.first <= last]
        below = "another node" if record.first in ends else "the start of memory"
        above = "another node" if record.last + 1 in starts else "the end of memory"
        start = record.first
        for first, last, owner in cuts + [(record.last + 1, record.last, above)]:
            if start < first:
                yield cut_gap(Gap(start, first - 1, below, owner), low, high)
            below, start = owner, max(start, last + 1)


def cut_gap(gap: Gap, low: int, high: int) -> Gap:
    """Returns the part of a gap from `low` on and below `high`."""
    if gap.first < low:
        gap = gap._replace(first=low, below=ranges.size_text(low))
    if gap.last >= high:
        gap = gap._replace(last=high - 1, above=ranges.size_text(high))
    return gap


def room(gap: Gap) -> int:
    """Returns the bytes for an area in a gap, from the first multiple of 16 MiB on."""
    return max(0, gap.last + 1 - -(-gap.first // ALIGN) * ALIGN)


def gap_text(own: Machine, texts: reports.Texts, low: int, high: int, where: str) -> str:
    """Returns a text on the greatest gap of a window, and on what bounds it."""
    memory = reports.spans("memory", texts["memory"])
    found = max(gaps(memory, own.claimed(texts), low, high), key=room, default=None)
    if found is None or room(found) == 0:
        return f"{where} there is no gap at a multiple of 16 MiB"
    return (f"{where} the greatest gap has room for {room(found) // MIB}M: {ranges.range_text(found.first, found.last)}, "
            f"between {found.below} and {found.above}")


def taken_text(own: Machine, texts: reports.Texts, asked: str) -> str:
    """Returns a text on who has bytes of the place that the line asks for."""
    said = command_line.program_plain(asked.split("crashkernel=")[-1])
    parts, base = said if said and len(said[0]) == 1 else ([], 0)
    owners = [owner for first, last, owner in own.claimed(texts)
              if parts and first < base + parts[0][2] and base <= last]
    if owners:
        names = sorted(set(owners))
        return f"of the place {' and '.join(names)} {'has' if len(names) == 1 else 'have'} bytes"
    return "the place isn't free memory of one node, from a multiple of 1 MiB on"


def reasons(own: Machine, asked: str, tried: Tried) -> Iterator[str]:
    """Yields the reasons why an area doesn't fit, one line each."""
    if tried.why not in ("no area", "low failed", "in use"):
        yield f"the boot stops after it: {without_stop(tried.why)}"
        return
    texts, stop = own.run("", ["memory", "journal"])
    if stop:
        yield f"without an area the boot stops, too: {stop}"
        return
    if tried.why == "low failed":
        yield gap_text(own, texts, 0, LOW, "it has a place, but its low part hasn't: below 4 GiB")
        return
    if tried.why == "in use":
        yield taken_text(own, texts, asked)
        return
    if ",high" not in asked:
        yield gap_text(own, texts, ALIGN, LOW, "from 16 MiB on and below 4 GiB")
    yield gap_text(own, texts, ALIGN if ",high" in asked else LOW, HIGH, "from 16 MiB on" if ",high" in asked else "from 4 GiB on")


def without_stop(said: str) -> str:
    """Returns the program's line on a stop, without the word `stopped`."""
    return said[len("stopped: "):] if said.startswith("stopped: ") else said


def outcome(own: Machine, head: str, asked: str, picked: str | None = None) -> Outcome:
    """Returns the outcome of asking for an area. `picked` is the size from its ranges, if the tool
    picks it instead of the program."""
    what = asked if picked is None else picked
    tried = own.tried(what) if what else Tried([], "none")
    if tried.why == "none":
        return Outcome(head, asked, "nothing", [], [NOTHING])
    size = picked and picked[len("crashkernel="):]
    if picked is None and RANGES.search(asked) and tried.ranges:
        first, last = tried.ranges[-1]
        size = command_line.size_text(last + 1 - first)
    why = [] if tried.ranges else list(reasons(own, what, tried))
    return Outcome(head, asked, size, tried.ranges, why)


def picked_of(own: Machine, asked: str) -> str | None:
    """Returns the size that the kernel picks from ranges of total memory, or an empty text if no
    range fits. Returns None if the size has no ranges, or if the program picks as the kernel does."""
    if not own.is_raw or not RANGES.search(asked):
        return None
    total = command_line.total_by(own.program, own.words)(" ".join(own.rest + [asked]))
    try:
        size, base = command_line.ranged(asked, asked.index("=") + 1, command_line.round_up(total.kernel))
    except command_line.Malformed:
        return ""
    place = f"@{command_line.size_text(base)}" if base else ""
    return f"crashkernel={command_line.size_text(size)}{place}" if size else ""


def greatest_of(own: Machine, texts: reports.Texts, form: str, suffix: str, first: int = 0) -> Greatest:
    """Returns the greatest size that fits in a form; `first` is the first guess."""
    size, best = greatest(own, texts, suffix, first=first)
    below = None
    if size and not suffix and best.ranges[-1][0] >= LOW:
        low, under = greatest(own, texts, suffix, LOW)
        below = Greatest("", low, under.ranges)
    return Greatest(form, size, best.ranges, below)


def warnings(own: Machine, texts: reports.Texts) -> Iterator[str]:
    """Yields the reasons to doubt the answers, by the reports of the boot."""
    yield from own.said
    if own.next_command:
        yield machine.NO_SRAT
    if own.is_raw and own.kernel is None:
        yield runner.ASSUMED
    yield from (note for note in (own.place, *notes.notes_for(own.words, texts)) if note)
    if own.is_raw and machine.is_uefi(own.page):
        yield ("the firmware is UEFI: the kernel claims more before the area there, so it may lie lower "
               "(by 32 MiB in four boots), or find no place")
    for why in machine.panics(texts):
        yield f"Linux 6.1 panics on this boot: {why}"


def main(words: list[str]) -> int:
    """Prints what fits on each machine. Returns 0 if what is asked for fits on all of them, else 1."""
    given = read_words(words)
    status = 0
    for name in given.machines:
        given.machine = name
        try:
            with Machine(given) as own:
                fits = answer(own, given)
        except (tool.Trouble, OSError) as trouble:
            if len(given.machines) == 1:
                raise
            tool.complain_of(NAME, trouble, "" if str(trouble).startswith(name) else f"{name}: ")
            status = 2
            continue
        status = max(status, 0 if fits else 1)
    return status


def answer(own: Machine, given: argparse.Namespace) -> bool:
    """Prints what fits on a machine. Returns whether what is asked for fits."""
    texts, stop = own.run("", ["map", "nodes", "memory", "journal"])
    if stop:
        raise tool.Trouble(f"the boot stops without a crash area: {without_stop(stop)}")
    said = list(warnings(own, texts))
    several = len(given.machines) > 1
    for note in said if not given.json else []:
        tool.complain(NAME, f"{given.machine}: {note}" if several else note)
    tool.say_next(own.next_command if not given.json else None)
    if several and not given.json:
        print(f"== {given.machine}")
    found = find(own, texts, given.machine, not given.json)
    if given.json:
        print(json.dumps(crash_sizes.as_object(found, said)))
    return found.fits


def find(own: Machine, texts: reports.Texts, name: str, is_shown: bool) -> Found:
    """Returns what fits on a machine. If `is_shown`, each line is printed as soon as it is found."""
    def show(lines: list[str]) -> None:
        """Prints the lines."""
        for line in lines if is_shown else []:
            print(line)
    sizes: list[Greatest] = []
    outcomes: list[Outcome] = []
    for size in own.sizes:
        asked = f"crashkernel={size}"
        outcomes.append(outcome(own, "size", asked, picked_of(own, asked)))
        show(crash_sizes.outcome_lines(outcomes[-1]))
    if not own.sizes:
        for form, suffix in (("plain", ""), ("high", ",high")):
            sizes.append(greatest_of(own, texts, form, suffix, sizes[0].size if sizes else 0))
            show(crash_sizes.greatest_lines(sizes[-1]))
        if own.asked:
            outcomes.append(outcome(own, "line", own.asked))
            show(crash_sizes.outcome_lines(outcomes[-1]))
    return Found(name, sizes, outcomes)


def command() -> NoReturn:
    """Runs the tool as a command."""
    tool.run_tool(NAME, main, failure=2)


if __name__ == "__main__":
    command()
