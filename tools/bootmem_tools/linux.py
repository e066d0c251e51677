"""bootmem-linux: the reports of bootmem61 for a boot of Linux 6.1, with its inputs read and its
early claims made as that kernel does."""

from __future__ import annotations

import argparse
import os
import subprocess
import sys
from typing import Iterator, NoReturn

from bootmem_tools import as_linux, linux_claims, runner, tool

NAME = as_linux.LINUX
USAGE = """bootmem-linux [--pages 4K|2M|1G] [--brk BYTES] [--x2apic] [--cma]
                     [--log FILE] [--explain] [--program P] WORDS.. ZEROPAGE"""
ABOUT = """Prints the reports of bootmem61 for these words, for a boot of Linux 6.1: the
inputs are read as that kernel reads them, and what it claims before its crash
area is claimed, so that the crash area and the data of nodes lie where that
kernel has them. Each thing that was changed, assumed or can't be known is a
line on standard error."""
EPILOG = f"""WORDS are those of bootmem61, including --report but not --claims. With UEFI firmware give --efi;
otherwise boot services' memory isn't claimed.

These claims are made, in the kernel's order, as far as the inputs show them: setup_data, EFI's
memory map, brk, boot services, page tables of the direct map, the log buffer of log_buf_len=, an
initrd that moves, the distances of a SLIT; with --cma the areas of cma= and hugetlb_cma=.
A log of this kernel (--log; it needs no option on the line) shows more: all nodes of
setup_data, ACPI tables, and EFI's memory attributes and TPM log.

The claims are lines of a file that bootmem61 carries out (--claims), with IDs from
{linux_claims.FIRST_ID} on. --explain prints each line with the program's answer, and with the
kernel function that makes the claim.

The program's own --pages FILE is taken if there is such a file.

{runner.FINDING61}

exit status: that of bootmem61; 2 for words that aren't those above.

examples:
  bootmem-linux --report crash --kernel 16M,52M --cmdline cmdline zp.bin
  bootmem-linux --explain --pages 1G --efi efi.bin zp.bin"""


def read_words(given: list[str]) -> tuple[argparse.Namespace, as_linux.Settings, list[str]]:
    """Returns the tool's own words, the settings that they give, and the program's words."""
    parser = tool.new_parser(NAME, USAGE, ABOUT, EPILOG)
    as_linux.add_options(parser)
    as_linux.add_log(parser)
    parser.add_argument(
        "--explain",
        action="store_true",
        help="print each line of claims with its answer and the kernel function",
    )
    runner.add_program(parser, runner.LINUX)
    return as_linux.split_words(parser, given)


def claim_lines(program: str, prepared: as_linux.Prepared) -> Iterator[str]:
    """Yields the lines of the claims file, each with what it claims and the kernel function that makes
    the claim, and with the program's answer unless the boot stops."""
    for line, claim, answer in as_linux.answered(program, prepared.core, prepared.claims):
        told = f"{line}: {answer}" if answer else line
        yield f"{told}: {claim.what} ({claim.rule})"


def main(arguments: list[str]) -> int:
    """Prints the program's reports for the prepared inputs, and returns its status."""
    own, settings, rest = read_words(arguments)
    program = os.path.abspath(runner.find_program(own.program, runner.LINUX))
    with as_linux.prepared(program, rest, settings) as prepared:
        for line in as_linux.lines_of(prepared):
            tool.complain(NAME, line)
        for line in claim_lines(program, prepared) if own.explain and prepared.claims else []:
            tool.complain(NAME, f"claim: {line}")
        done = subprocess.run([program, *prepared.words], stderr=subprocess.PIPE, check=False)
        said = done.stderr.decode("utf-8", "replace")
        print(said, end="", file=sys.stderr, flush=True)
        why = as_linux.why_failed(done.returncode, said, prepared.words)
        if why:
            tool.complain(NAME, why)
            name = runner.name_in(said)
            tool.say_next(as_linux.next_for(done.returncode, name, prepared.words))
        return done.returncode


def command() -> NoReturn:
    """Runs the tool as a command."""
    tool.run_tool(NAME, main, failure=2)


if __name__ == "__main__":
    command()
