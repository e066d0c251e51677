"""bootmem-line: a kernel's command line, printed so that bootmem reads it as that kernel does."""

from __future__ import annotations

import argparse
import sys
from typing import Callable, NoReturn

from bootmem_tools import command_line, ranges, runner, tool

NAME = "bootmem-line"
USAGE = """bootmem-line [--e820ext FILE] [--total SIZE] [--program P]
                    [CMDLINE [ZEROPAGE]]"""
ABOUT = """Reads a command line as Linux 6.1 reads it and prints one that bootmem reads the same way. It prints each change as a
line on standard error. bootmem refuses a malformed option and reads crashkernel= by rules of its own; the kernel warns and
goes on, looks for crashkernel= in the raw line, and rounds total memory up before it picks a range."""
EPILOG = f"""CMDLINE is a file, or standard input if there is none or it is -. If crashkernel= has ranges, as in
1G-4G:192M,4G-:256M, the size depends on total memory: that of ZEROPAGE (and --e820ext) under the line's own mem= and
memmap=, by the program's report map, or --total.

What is changed:
  crashkernel=      the last value of each form in the raw line counts, also
                    after -- and inside other words; ranges become the size
                    that the kernel picks; malformed ones are left out
  mem=, memmap=     read as far as the kernel reads them (mem=4GB is 4G, and
                    memmap=64MG is 64M), or left out
  numa=             off stays; fake= and the like are left out
  swiotlb=          if it asks for more than 248 MiB, the low part is larger
  the line          cut after 2,047 bytes; an open quotation mark is closed

Words that bootmem ignores though the kernel acts on them (movable_node, kernelcore=, cma=, log_buf_len=, ..), and
names that are nearly one of bootmem's own, are printed as passed over; they stay, and aren't a change. A line with which
the kernel stops, or never settles its map, is trouble.

{runner.FINDING}

exit status: 0 if nothing had to be changed, 1 if something was, 2 for trouble.

examples:
  bootmem-line cmdline zp.bin > line
  echo 'quiet mem=4GB crashkernel=auto' | bootmem-line
  echo 'crashkernel=1G-4G:192M,4G-:256M' | bootmem-line --total 4095M"""


def read_words(words: list[str]) -> argparse.Namespace:
    """Returns the tool's words."""
    parser = tool.new_parser(NAME, USAGE, ABOUT, EPILOG)
    parser.add_argument("cmdline", metavar="CMDLINE", nargs="?", default="-", help="the file with the line")
    parser.add_argument("zeropage", metavar="ZEROPAGE", nargs="?", help="the machine's zero page")
    parser.add_argument("--e820ext", metavar="FILE", help="the machine's E820 extension")
    parser.add_argument("--total", metavar="SIZE", help="total memory, in place of ZEROPAGE")
    runner.add_program(parser)
    given = parser.parse_args(words)
    if given.total is not None and ranges.parse_size(given.total) is None:
        parser.error(f"--total {given.total}: no size")
    return given


def total_of(given: argparse.Namespace) -> Callable[[str], command_line.Total] | None:
    """Returns a function that returns total memory for a line, or None if the words don't name it."""
    if given.total is not None:
        size = ranges.parse_size(given.total) or 0
        return lambda _: command_line.Total(size, size)
    if given.zeropage is None:
        return None
    words = ["--e820ext", given.e820ext] if given.e820ext else []
    return command_line.total_by(given.program, words + [given.zeropage])


def main(words: list[str]) -> int:
    """Prints the line, and the changes on standard error. Returns 1 if there are any, else 0."""
    given = read_words(words)
    reading = command_line.read_line(command_line.read_file(given.cmdline), total_of(given))
    for said in reading.changes + reading.notes:
        tool.complain(NAME, said)
    sys.stdout.buffer.write(reading.line.encode("latin-1") + b"\n")
    return 1 if reading.changes else 0


def command() -> NoReturn:
    """Runs the tool as a command."""
    tool.run_tool(NAME, main, failure=2)


if __name__ == "__main__":
    command()
