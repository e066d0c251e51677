"""Finds and runs the programs bootmem and bootmem61, and reads their reports."""

from __future__ import annotations

import argparse
import os
import shutil
import subprocess
import sys
from typing import Iterable, Optional, Sequence

from bootmem_tools import next_step, notes
from bootmem_tools.reports import Texts, split_reports
from bootmem_tools.tool import Trouble, complain

STOPPED = 6  # the status of a boot that stops
PLACELESS = {"map", "options", "nodes"}  # reports that don't depend on the kernel's place
ASSUMED = ("the kernel's place isn't known, so 16 MiB to 48 MiB is assumed; "
           "--kernel BASE,SIZE tells it")
OWN, LINUX = "bootmem", "bootmem61"  # the programs: the second has the profile of Linux 6.1
FINDING = ("The program is --program, else $BOOTMEM, else the installed one of this tool, else bootmem "
           "on the PATH.")
FINDING61 = ("The program is bootmem61: --program, else $BOOTMEM61, else the installed one of this "
             "tool, else the one on the PATH.")
FINDING_RAW = FINDING61[:-1] + "; with --raw it is bootmem, which BOOTMEM names."
FINDING_AS_LINUX = FINDING[:-1] + "; with --as-linux it is bootmem61, which BOOTMEM61 names."
# The reports of a run, with the program's line if the boot stops.
Stopped = tuple[Texts, Optional[str]]


def add_program(parser: argparse.ArgumentParser, name: str = OWN) -> None:
    """Adds the option that names the program of this name."""
    parser.add_argument("--program", metavar="P", help=f"the program {name}; see below")


def find_program(named: str | None = None, name: str = OWN) -> str:
    """Returns the path of the program of this name: the named one, else $BOOTMEM or $BOOTMEM61,
    else the one next to the tools, or at the top of their clone, else the one on the PATH.

    # Errors
    A Trouble if there is none, or if the named one can't be run.
    """
    tools = os.path.dirname(os.path.dirname(os.path.realpath(__file__)))
    chosen = named or os.environ.get(name.upper())
    if chosen:
        found = shutil.which(chosen)
        if found is None:
            command = next_step.make_named(chosen)
            raise Trouble(f"{chosen}: no program that can be run", next_command=command)
        return found
    here = os.path.dirname(os.path.realpath(sys.argv[0]))
    beside = [os.path.join(here, "..", "libexec", "bootmem", name), os.path.join(here, name)]
    if os.path.basename(tools) == "tools":
        beside.append(os.path.join(os.path.dirname(tools), name))
    for path in beside:
        if os.path.isfile(path) and os.access(path, os.X_OK):
            return path
    found = shutil.which(name)
    if found is None:
        raise Trouble(f"there is no program {name} beside this tool or on the PATH; "
                      f"--program or {name.upper()} names it", next_command=next_step.make(name))
    return found


def name_in(said: str) -> str:
    """Returns the name of the program that printed this on standard error."""
    return LINUX if said.startswith(f"{LINUX}: ") else OWN


def call_program(program: str, names: Sequence[str], words: Sequence[str],
                 folder: str | None = None) -> tuple[int, str, str]:
    """Runs the program for these reports; the words mustn't have --report. Returns its status, its
    standard output and its line on standard error.

    The program gets this process's standard input, since a word may be /dev/stdin.
    """
    if any(word == "--report" or word.startswith("--report=") for word in words):
        raise Trouble("this tool asks for its own reports: "
                      "leave --report out of the program's words", 2)
    done = subprocess.run([program, "--report", ",".join(names), *words], cwd=folder,
                          stdout=subprocess.PIPE, stderr=subprocess.PIPE, check=False)
    out, err = (part.decode("utf-8", "replace") for part in (done.stdout, done.stderr))
    return done.returncode, out, "; ".join(err.splitlines())


def texts_of(names: Sequence[str], text: str) -> Texts:
    """Returns the reports that a run for these names printed.

    # Errors
    A Trouble if one of several is missing, since the program isn't bootmem then.
    """
    found = split_reports(text) if len(names) > 1 else {names[0]: text.splitlines()}
    missing = [name for name in names if name not in found]
    if missing:
        raise Trouble(f"the program printed no report {missing[0]}: is it bootmem?")
    return found


class Failed(Trouble):
    """The error of a run that failed, with its status and its line on standard error."""

    def __init__(self, ended: int, said: str) -> None:
        super().__init__(f"the program ended with status {ended}: {said or 'it said nothing'}")
        self.ended, self.said = ended, said


def run_program(program: str, names: Sequence[str], words: Sequence[str],
                folder: str | None = None) -> Texts:
    """Returns the reports of these names for these words, which mustn't have --report.

    # Errors
    A Trouble if the program doesn't end with status 0.
    """
    status, text, said = call_program(program, names, words, folder)
    if status != 0:
        raise Failed(status, said)
    return texts_of(names, text)


def run_or_stop(program: str, names: Sequence[str], words: Sequence[str],
                folder: str | None = None) -> Stopped:
    """Returns the reports of these names and None. If the boot stops, returns no report and the
    program's line.

    # Errors
    A Trouble if the program's status is neither 0 nor that of a stop.
    """
    status, text, said = call_program(program, names, words, folder)
    if status == STOPPED:
        return {}, said.removeprefix(f"{name_in(said)}: ")
    if status != 0:
        raise Failed(status, said)
    return texts_of(names, text), None


def is_place_assumed(names: Iterable[str], words: Iterable[str]) -> bool:
    """Returns whether one of these reports depends on the kernel's place, but the program's words
    don't give it."""
    has_place = any(word == "--kernel" or word.startswith("--kernel=") for word in words)
    return not has_place and not PLACELESS.issuperset(names)


def run_for(tool: str, program: str, names: Sequence[str], words: Sequence[str]) -> Texts:
    """Returns what `run_program` does, for words that a tool's user gave. It prints a note if the
    kernel's place is assumed or isn't RAM, and on memory in no block of the SRAT."""
    found = run_program(program, names, words)
    for note in notes.notes_for(words, found):
        complain(tool, note)
    if is_place_assumed(names, words):
        complain(tool, ASSUMED)
    return found
