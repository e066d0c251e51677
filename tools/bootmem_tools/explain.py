"""Prints one line on why bootmem, bootmem61 or bootaudit refused its words, couldn't read a file, or refused a table with a wrong
checksum. The installed commands print it after the program's own line.

It is called as `explain PROGRAM STATUS WORDS`, and reads the words by the program's grammar. It decides nothing: the program has
ended with the status before.
"""

from __future__ import annotations

import os
import stat
from typing import Iterable, NamedTuple, NoReturn, Sequence

from bootmem_tools import command_line, ranges, tool
from bootmem_tools.words import AUDIT_OPTIONS, COMMANDS, Command

HELP = ("--help", "-h", "--version")
FRAME = ranges.FRAME
MIB = ranges.MIB
LEAST_PLACE = MIB  # the lowest address of the kernel's image
LEAST_SIZE = 2 * FRAME
MOST_MIRRORS = 64
ENTRIES = range(2, 3001)  # the values of --make
USAGE, UNREADABLE, MALFORMED = 2, 3, 5
TABLES = ("srat", "slit")  # inputs with a checksum: byte 9 makes the sum of all bytes 0 modulo 256
CHECKSUM, LONGEST_TABLE = 9, 1 << 20


class Refused(Exception):
    """An error that says which word is wrong, and what would be right."""


class Words(NamedTuple):
    """The words, parsed: the value of each option (empty for a flag), and the zero page or None."""

    values: dict[str, str]
    page: str | None


def nearest(word: str, known: Iterable[str]) -> str | None:
    """Returns the known word that differs from this one by at most two letters and by less than half of them; else None."""
    found = min(((command_line.distance(word.lower(), one), one) for one in known), default=(len(word), ""))
    return found[1] if found[0] <= 2 and found[0] * 2 < max(len(word), 2) else None


def suggestion(word: str, known: Sequence[str], front: str = "") -> str:
    """Returns a text that suggests the known word that may be meant, or lists all of them."""
    near = nearest(word, known)
    return f"did you mean {front}{near}?" if near else f"one of {', '.join(front + one for one in known)}"


def split(command: Command, words: Sequence[str]) -> Words:
    """Splits the words of a program.

    # Errors
    Refused for the first word that the grammar doesn't allow there.
    """
    values: dict[str, str] = {}
    page: str | None = None
    rest = list(words)
    while rest:
        word = rest.pop(0)
        if word == "--":
            for name in rest:
                page = only_page(page, name)
            break
        if not word.startswith("-") or word == "-":
            page = only_page(page, word)
            continue
        name, value = read_option(command, word, rest)
        if name in values:
            raise Refused(f"--{name}: given twice; each option may stand once")
        values[name] = value
        judge_value(command, name, value, words)
    return Words(values, page)


def only_page(page: str | None, name: str) -> str:
    """Returns the zero page's name. Raises Refused if there was one before."""
    if page is not None:
        raise Refused(f"{name}: a second zero page, after {page}; only one may be named")
    return name


def read_option(command: Command, word: str, rest: list[str]) -> tuple[str, str]:
    """Returns the name and the value of an option. If the value is a word of its own, it is removed from the rest."""
    if word in HELP:
        raise Refused(f"{word}: must be the first word")
    if not word.startswith("--"):
        near = nearest(word[1:], command.options)
        raise Refused(f"{word}: " + (f"did you mean --{near}?" if near else f"no option; a file of this name is given as ./{word}"))
    name, mark, value = word[2:].partition("=")
    if name not in command.options:
        raise Refused(f"--{name}: no such option; {other_command(command, name) or suggestion(name, list(command.options), '--')}")
    if not command.options[name]:
        if mark:
            raise Refused(f"{word}: --{name} has no value")
        return name, ""
    if mark:
        return name, value
    if not rest:
        raise Refused(f"--{name}: its value is missing: --{name} {command.options[name]}")
    if rest[0].startswith("-") and rest[0] != "-":
        raise Refused(f"--{name} {rest[0]}: a value doesn't begin with -; if it is meant, write --{name}={rest[0]}")
    return name, rest.pop(0)


def other_command(command: Command, name: str) -> str:
    """Returns the program that has this option, or an empty text if none has it."""
    others = [other.name for other in COMMANDS.values() if name in other.options and other is not command]
    return f"{others[0]} has it" if others else ""


def judge_value(command: Command, name: str, value: str, words: Sequence[str]) -> None:
    """Checks the value of an option.

    # Errors
    Refused if the program refuses the value.
    """
    why = None
    if name == "report":
        why = report_fault(command, value)
    elif name == "kernel":
        why = kernel_fault(value, 52 if "--la57" in words else 46)
    elif name == "mirror":
        why = mirror_fault(value)
    elif name == "make" and not (value.isascii() and value.isdigit() and int(value) in ENTRIES):
        why = f"a number from {ENTRIES[0]} to {ENTRIES[-1]:,}, in decimal digits"
    if why:
        raise Refused(f"--{name} {value}: {why.removeprefix(value + ': ')}")


def mirror_fault(value: str) -> str | None:
    """Returns what is wrong with a list of ranges, or None."""
    pieces = value.split(":")
    if len(pieces) > MOST_MIRRORS:
        return f"{len(pieces)} ranges; at most {MOST_MIRRORS}"
    return next((why for why in map(range_fault, pieces) if why), None)


def report_fault(command: Command, value: str) -> str | None:
    """Returns what is wrong with a list of reports, or None."""
    for name in value.split(","):
        if not name:
            return "an empty name; names have one comma between each two, and no blank"
        if name not in command.reports:
            if name.lower() in command.reports:
                return f"{name}: names of reports are in lower case: {name.lower()}"
            others = [other.name for other in COMMANDS.values() if name in other.reports]
            return f"{name}: no such report; {f'{others[0]} has it' if others else suggestion(name, command.reports)}"
    return None


def size_fault(text: str) -> str | None:
    """Returns why a text isn't a size, or None if it is."""
    if command_line.plain_size(text) is not None:
        return None
    if not text:
        return "a size is missing: BASE,SIZE"
    if text[-1:] in "bB" and command_line.plain_size(text[:-1]) is not None:
        return f"{text}: no size; without the {text[-1]}: {text[:-1]}"
    if text[-2:].lower() == "ib" and command_line.plain_size(text[:-2]) is not None:
        return f"{text}: no size; without the {text[-2:]}: {text[:-2]}"
    return f"{text}: no size up to 2^64 - 1; a size is a number, and K, M, G, T, P or E may follow: 16M, 0x1000000"


def range_fault(text: str) -> str | None:
    """Returns why a text isn't a range BASE,SIZE, or None if it is."""
    base, mark, size = text.partition(",")
    if not mark:
        return f"{text or 'an empty text'} has no size after it: BASE,SIZE, as 16M,32M"
    why = size_fault(base) or size_fault(size)
    if why is None and value_of(base) + value_of(size) > ranges.TOP:
        why = "base and size together are above 2^64 - 1"
    return why


def value_of(text: str) -> int:
    """Returns the value of a text that is a size."""
    return command_line.plain_size(text) or 0


def kernel_fault(text: str, width: int) -> str | None:
    """Returns why the kernel's image can't lie in a range BASE,SIZE, for addresses of `width` bits, or None."""
    why = range_fault(text)
    if why:
        return why
    base, size = (value_of(part) for part in text.split(",", 1))
    for what, number in (("address", base), ("size", size)):
        if number % FRAME:
            below = number // FRAME * FRAME
            return f"the {what} {number:#x} isn't a multiple of 4,096: {below:#x} and {below + FRAME:#x} are"
    if base < LEAST_PLACE:
        return f"the address {base:#x} is below 0x100000"
    if size < LEAST_SIZE:
        return f"the size {size:#x} is below 0x2000"
    if base + size > 1 << width:
        return f"the image ends above 2^{width}" + (" (--la57 allows 2^52)" if width == 46 else "")
    return None


def boot_fault(command: Command, words: Sequence[str]) -> str:
    """Returns why bootmem or bootmem61 refuses the words."""
    try:
        found = split(command, words)
    except Refused as why:
        return str(why)
    if "make" in found.values:
        if found.page is not None:
            return f"{found.page}: --make takes the place of a zero page; leave one of them out"
        return "--e820ext: --make takes the place of an extension; leave one of them out"
    return f"no zero page is named: {command.name} [OPTION].. ZEROPAGE; '{command.name} --help' lists the options"


def audit_fault(words: Sequence[str]) -> str:
    """Returns why bootaudit refuses the words."""
    rest = list(words)
    if rest[:1] == ["--la57"]:
        rest.pop(0)
    for word in rest:
        if word in HELP:
            return f"{word}: must be the first word"
        if word == "--la57":
            return "--la57: stands once, before the names"
        if word.startswith("-"):
            near = nearest(word.lstrip("-"), AUDIT_OPTIONS)
            return f"{word}: " + (f"did you mean --{near}?" if near else f"no option; a file of this name is given as ./{word}")
    return f"{len(rest)} names; three reports are needed: bootaudit [--la57] MAP OWNERS BLOCKS"


def files_of(program: str, words: Sequence[str]) -> list[str]:
    """Returns the names of the files that the program reads, in the order in which it reads them."""
    if program == "bootaudit":
        return [word for word in words if word != "--la57"]
    command = COMMANDS[program]
    try:
        found = split(command, words)
    except Refused:
        return []
    named = {**found.values, "zeropage": found.page}
    return [name for name in (named.get(each) for each in command.inputs) if name is not None]


def unreadable(path: str) -> str | None:
    """Returns why a file can't be read, or None if it can. Only a plain file is opened, since reading from a pipe would use up its data."""
    try:
        mode = os.stat(path).st_mode
        if stat.S_ISDIR(mode):
            return "it is a folder"
        if not os.access(path, os.R_OK):
            return "there is no permission to read it"
        if stat.S_ISREG(mode):
            with open(path, "rb", buffering=0) as file:
                file.read(1)
    except FileNotFoundError:
        return missing(path)
    except PermissionError:
        return "there is no permission to read it, or to enter a folder above it"
    except (OSError, ValueError) as error:
        return str(getattr(error, "strerror", None) or error)
    return None


def missing(path: str) -> str:
    """Returns a text on which part of a path doesn't exist."""
    if not path:
        return "the name is empty"
    if os.path.islink(path):
        return f"it is a link to {os.readlink(path)}, which doesn't exist"
    folder = os.path.dirname(path)
    return f"there is no folder {folder}" if folder and not os.path.isdir(folder) else "it doesn't exist"


def checksum_fault(command: Command, words: Sequence[str]) -> str | None:
    """Returns a text on what the checksum of a table should be, or None if no table of the words has a wrong one. Only plain files of
    the length that they state are read."""
    try:
        values = split(command, words).values
    except Refused:
        return None
    for name in TABLES:
        path = values.get(name)
        if path is None or not os.path.isfile(path):
            continue
        with open(path, "rb") as file:
            table = file.read(LONGEST_TABLE)
        wrong = sum(table) % 256
        if table[:4] == name.upper().encode() and int.from_bytes(table[4:8], "little") == len(table) > CHECKSUM and wrong:
            own = table[CHECKSUM]
            return (f"{path}: its bytes sum to {wrong:#04x}, not 0: its checksum, the byte at {CHECKSUM}, is {own:#04x}; "
                    f"{(own - wrong) % 256:#04x} is right")
    return None


def explain(program: str, status: int, words: Sequence[str]) -> str | None:
    """Returns why the program ended with this status, or None if the words don't show it."""
    if status == USAGE:
        for number, word in enumerate(words, 1):
            if any("\udc80" <= letter <= "\udcff" for letter in word):
                return f"word {number} isn't UTF-8"
        return boot_fault(COMMANDS[program], words) if program in COMMANDS else audit_fault(words)
    if status == MALFORMED and program in COMMANDS:
        return checksum_fault(COMMANDS[program], words)
    for path in files_of(program, words) if status == UNREADABLE else []:
        why = unreadable(path)
        if why:
            return f"{path}: {why}"
    return None


def main(words: list[str]) -> int:
    """Prints the line."""
    program, status, *rest = words
    why = explain(program, int(status), rest)
    if why:
        tool.complain(program, why)
    return 0


def command() -> NoReturn:
    """Runs as a command."""
    tool.run_tool("explain", main)


if __name__ == "__main__":
    command()
