"""bootmem-diff: what changed between two texts of reports, a log and a text, or two runs of bootmem, by address."""

from __future__ import annotations

import shlex
from typing import Iterable, NoReturn, Optional

from bootmem_tools import as_linux, kernel_log, ranges, reports, runner, tool

NAME = "bootmem-diff"
# The reports of both sides, and the names of those to compare, if the words have them.
Sides = tuple[reports.Texts, reports.Texts, Optional[list[str]]]
# A range in which the sides differ: its first and last byte, and what each side says of it.
Change = tuple[int, int, str, str]

COMPARED = ["map", "owners", "memory", "reserved", "nodes", "blocks", "crash"]
USAGE = """bootmem-diff [--report LIST] A B
       bootmem-diff [--report LIST] [--program P] --a WORDS --b WORDS"""
ABOUT = """Compares two texts of reports address by address, or what bootmem prints for two lists of words, and prints
one line for each range in which they differ:

    0x0000000000100000-0x00000000001fffff usable -> reserved

`none` means that one of them says nothing of the range. If several reports are compared, the lines of each
follow a line `== NAME`."""
EPILOG = f"""A and B are files; one of them may be - for standard input. Each has one report, or several with their lines
`== NAME`. Without --report the reports map and owners are compared, as far as both sides have them.

One of them may be a kernel's log (dmesg). It has the map, with memblock=debug the memory records, the nodes of an SRAT
that is used, and the crash area in whole MiB. All of these that the other side has are compared.

WORDS are the program's words in one argument, quoted as for a shell, without --report.

{runner.FINDING}

exit status: 0 if there is no difference, 1 if there is one, 2 if they can't be compared.

examples:
  bootmem-diff old.txt new.txt
  bootmem-diff --a '--kernel 16M,8M zp.bin' --b '--kernel 32M,8M zp.bin'"""


def read_words(words: list[str]) -> Sides:
    """Returns both sides' reports, and the names of the reports to compare, or None."""
    parser = tool.new_parser(NAME, USAGE, ABOUT, EPILOG)
    parser.add_argument("files", metavar="A B", nargs="*", help="the two texts of reports, or a text and a log")
    parser.add_argument("--report", metavar="LIST", help=f"compare these, of {','.join(COMPARED)}")
    parser.add_argument("--a", metavar="WORDS", help="the words of the first run")
    parser.add_argument("--b", metavar="WORDS", help="the words of the second run")
    runner.add_program(parser)
    given = parser.parse_args(words)
    names = given.report.split(",") if given.report is not None else None
    for name in names or []:
        if name not in COMPARED:
            parser.error(f"{name}: no report that is compared by address: one of {', '.join(COMPARED)}")
    if given.a is not None and given.b is not None and not given.files:
        program = runner.find_program(given.program)
        asked = names or ["map", "owners"]
        (one, before), (other, after) = run(program, asked, given.a), run(program, asked, given.b)
        if runner.is_place_assumed(asked, one) or runner.is_place_assumed(asked, other):
            tool.complain(NAME, runner.ASSUMED)
        return before, after, asked
    if given.a is not None or given.b is not None or len(given.files) != 2:
        parser.error("two texts A and B, or --a and --b with the words of two runs")
    if given.files == ["-", "-"]:
        parser.error("both A and B from standard input")
    (before, is_log), (after, is_other) = map(read_side, given.files)
    if is_log or is_other:
        names = names or [name for name in COMPARED if name in before and name in after] or None
    return before, after, names


def judge_side(first: bytes) -> str | None:
    """Returns why a text that begins with these bytes is neither reports nor a log, or None."""
    return None if kernel_log.HEAD.encode() in first else reports.judge_reports(first)


def read_side(path: str) -> tuple[reports.Texts, bool]:
    """Returns the reports of a file, or those that a kernel's log gives, and whether it is a log.

    # Errors
    A Trouble if it is neither.
    """
    kind = tool.Kind(
        "text of reports", tool.LONGEST, judge=judge_side, may_be_compressed=True
    )
    text = tool.read_text(path, kind=kind)
    is_log = not text.startswith("== ") and kernel_log.HEAD in text
    found = kernel_log.reports_of_log(text.splitlines()) if is_log else reports.split_reports(text)
    if not found:
        raise tool.Trouble(f"{tool.shown_name(path)}: no report of bootmem in it")
    return found, is_log


def run(program: str, names: list[str], text: str) -> tuple[list[str], reports.Texts]:
    """Splits a text of words, quoted as for a shell. Returns them and the program's reports for them."""
    try:
        words = shlex.split(text)
    except ValueError as error:
        raise tool.Trouble(f"{text!r}: {error}") from error
    return words, as_linux.run_explained(program, names, words)


def changes(name: str, before: Iterable[str], after: Iterable[str]) -> list[Change]:
    """Returns the ranges in which the two sides of a report differ, each as its first and last byte
    and what A and B have there."""
    found: list[Change] = []
    for first, last, sides in ranges.sweep(reports.spans(name, before), reports.spans(name, after)):
        was, now = (", ".join(span.name for span in side) or "none" for side in sides)
        if was == now:
            continue
        if found and found[-1][1] + 1 == first and found[-1][2:] == (was, now):
            first = found.pop()[0]
        found.append((first, last, was, now))
    return found


def chosen(names: list[str] | None, before: reports.Texts, after: reports.Texts) -> list[str]:
    """Returns the reports to compare: the named ones, which both sides must have, or else those of
    map and owners that both sides have."""
    for name in names or []:
        for side, have in (("A", before), ("B", after)):
            if name not in have:
                raise tool.Trouble(f"{side} has no report {name}")
    common = [name for name in COMPARED if name in before and name in after]
    picked = names or [name for name in common if name in ("map", "owners")] or common
    if not picked:
        raise tool.Trouble(f"A has {', '.join(before)}, B has {', '.join(after)}: no report that both have is compared")
    return picked


def main(words: list[str]) -> int:
    """Prints the differences. Returns 1 if there are any, else 0."""
    before, after, names = read_words(words)
    reports.refuse_empty_map(before, "A")
    reports.refuse_empty_map(after, "B")
    picked = chosen(names, before, after)
    differ = False
    for name in picked:
        found = changes(name, before[name], after[name])
        if found and len(picked) > 1:
            print(f"== {name}")
        for first, last, was, now in found:
            print(f"{ranges.range_text(first, last)} {was} -> {now}")
        differ = differ or bool(found)
    return 1 if differ else 0


def command() -> NoReturn:
    """Runs the tool as a command."""
    tool.run_tool(NAME, main, failure=2)


if __name__ == "__main__":
    command()
