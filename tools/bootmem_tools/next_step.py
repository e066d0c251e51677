"""Finds the command to run next, for errors with one obvious next step."""

from __future__ import annotations

import glob
import os
import shlex
from typing import Sequence

from bootmem_tools import kernel_log, log_srat, tool

PROGRAMS = ("bootmem", "bootmem61")  # the programs that the tools run, each a target of the Makefile
PACKAGE = os.path.dirname(os.path.realpath(__file__))
# The files that bootmem-collect writes only for root, and those that it writes for everyone.
ROOT_FILES = ("srat.bin", "slit.bin", "efi.bin", "kernel")
OTHER_FILES = ("zp.bin", "e820ext.bin", "cmdline")


def top_of_clone() -> str | None:
    """Returns the top of the repository that this package lies in, or None if it is installed."""
    tools = os.path.dirname(PACKAGE)
    top = os.path.dirname(tools)
    is_clone = os.path.basename(tools) == "tools" and os.path.isfile(os.path.join(top, "Makefile"))
    return top if is_clone else None


def make(target: str) -> str | None:
    """Returns the command that makes a target of the repository, or None outside of one."""
    top = top_of_clone()
    return f"make -C {shlex.quote(top)} {target}" if top else None


def make_named(program: str) -> str | None:
    """Returns the command that makes the program of this path, or None if no repository makes it."""
    folder, name = os.path.split(os.path.abspath(program))
    is_clone = os.path.isfile(os.path.join(folder, "tools", "collect.sh"))
    if name not in PROGRAMS or not is_clone or os.path.exists(program):
        return None
    return f"make -C {shlex.quote(folder)} {name}"


def collect(folder: str, is_root: bool = False) -> str:
    """Returns the command that collects the inputs of the machine that it runs on."""
    top = top_of_clone()
    command = os.path.join(top, "tools", "collect.sh") if top else "bootmem-collect"
    return f"{'sudo ' * is_root}{shlex.quote(command)} {shlex.quote(folder)}"


def for_page(name: str, folder: str) -> str:
    """Returns the next command after the tool of this name got a folder without a zero page: the tool
    with the machines in the folder, or the command that makes the inputs from a log there, or the
    one that collects them."""
    if glob.glob(os.path.join(glob.escape(folder), "*", "zp.bin")):
        return f"{name} {shlex.quote(folder.rstrip('/'))}/*/"
    log = os.path.join(folder, "log")
    if os.path.isfile(log):
        return f"zp-from-log --folder {shlex.quote(folder)} {shlex.quote(log)}"
    return collect(folder)


def refuse_pageless(name: str, folder: str) -> None:
    """Refuses a folder without a zero page for the tool of this name.

    # Errors
    A Trouble with the command to run next.
    """
    if not os.path.lexists(os.path.join(folder, "zp.bin")):
        why = f"{folder}: it has no zp.bin, the zero page"
        raise tool.Trouble(why, next_command=for_page(name, folder))


def for_srat(folder: str) -> str:
    """Returns the command that adds the SRAT to a folder: from a log there that has one, or else, run
    by root, from the machine."""
    log = os.path.join(folder, "log")
    if os.path.isfile(log):
        lines = [kernel_log.clean(line) for line in tool.read_text(log, kind=tool.LOG).splitlines()]
        if log_srat.read_srat(list(enumerate(lines, 1))).table:
            srat = shlex.quote(os.path.join(folder, "srat.bin"))
            return f"zp-from-log --output /dev/null --srat {srat} {shlex.quote(log)}"
    return collect(folder, is_root=True)


def for_missing(values: Sequence[str]) -> str | None:
    """Returns the command that makes the first of these files that is missing. Returns None unless
    bootmem-collect writes a file of this name, and the folder has others of its files."""
    for path in values:
        folder, name = os.path.split(path)
        if os.path.lexists(path) or name not in ROOT_FILES + OTHER_FILES:
            continue
        if not any(os.path.exists(os.path.join(folder, other)) for other in OTHER_FILES):
            continue
        if name == "srat.bin":
            return for_srat(folder or ".")
        return collect(folder or ".", is_root=name in ROOT_FILES)
    return None
