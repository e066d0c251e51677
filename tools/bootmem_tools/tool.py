"""The parts that all tools share: reading words and inputs, writing files, and ending with a status
and, after an error, one line on standard error."""

from __future__ import annotations

import argparse
import contextlib
import os
import re
import shlex
import signal
import stat
import sys
import tempfile
import textwrap
from io import BufferedReader
from typing import BinaryIO, Callable, Mapping, NamedTuple, NoReturn, Optional, Sequence, cast

from bootmem_tools import compressed

VERSION = "0.1.0"
WIDTH = 80  # letters in a line of help
LONGEST = 1 << 30  # bytes of a text: twice the length of the report blocks of 16 TiB in single frames
SHORT = 60  # letters of a line that an error quotes at most

BEHIND = ", or put the program's own words after --"
UNPROVED = ("This tool isn't proved: it only reads what the proved program prints, or writes what it "
            "reads.")


class Trouble(Exception):
    """An error that ends a tool: one line for standard error, the exit status if it isn't the tool's
    usual one, and the command to run next if there is an obvious one."""

    def __init__(
        self, message: str, status: int | None = None, next_command: str | None = None
    ) -> None:
        super().__init__(message)
        self.status = status
        self.next_command = next_command


def run_tool(name: str, main: Callable[[list[str]], int], failure: int = 1) -> NoReturn:
    """Ends the process with the status of main(words). For a Trouble it prints one line on standard
    error and ends with the status `failure`, unless the Trouble has its own."""
    open_missing()
    if hasattr(signal, "SIGPIPE"):
        signal.signal(signal.SIGPIPE, signal.SIG_DFL)
    try:
        status = main(sys.argv[1:])
        sys.stdout.flush()
    except Trouble as trouble:
        complain_of(name, trouble)
        status = failure if trouble.status is None else trouble.status
    except OSError as error:
        what = f"{error.filename}: " if error.filename else ""
        complain(name, f"{what}{error.strerror or error}")
        status = failure
    except MemoryError:
        complain(name, "out of memory")
        status = failure
    except KeyboardInterrupt:
        status = 130
    if status:
        os._exit(status)  # without flushing: the error of writing has been printed
    sys.exit(0)


def open_missing() -> None:
    """Opens standard output, if it is closed, so that writing fails, and standard error so that writing is ignored."""
    if sys.stdout is None:
        sys.stdout = open(os.open(os.devnull, os.O_RDONLY), "w", encoding="utf-8")  # each write is an error
    if sys.stderr is None:
        sys.stderr = open(os.devnull, "w", encoding="utf-8")


def complain(name: str, message: str) -> None:
    """Prints one line on standard error in the tool's name."""
    print(f"{name}: {printable(message)}", file=sys.stderr, flush=True)


def complain_of(name: str, trouble: Exception, of: str = "") -> None:
    """Prints why something failed as one line, after the text `of`, and a line `next:` if there is a
    command to run next."""
    complain(name, f"{of}{trouble}")
    say_next(trouble.next_command if isinstance(trouble, Trouble) else None)


def say_next(command: str | None) -> None:
    """Prints a line with the command to run next, if there is one, on standard error."""
    if command:
        print(f"next: {printable(command)}", file=sys.stderr, flush=True)


class Progress:
    """A line on a terminal that shows that a tool is at work; nothing if standard error is no terminal."""

    def __init__(self, name: str) -> None:
        self.name = name
        self.shown = bool(sys.stderr and sys.stderr.isatty())

    def show(self, text: str) -> None:
        """Replaces the line."""
        if self.shown:
            print(f"\r\x1b[K{self.name}: {printable(text)}", end="", file=sys.stderr, flush=True)

    def clear(self) -> None:
        """Removes the line."""
        if self.shown:
            print("\r\x1b[K", end="", file=sys.stderr, flush=True)


def printable(text: str) -> str:
    """Returns the text with escapes in place of letters that a terminal would act on or that standard
    error can't encode."""
    if text.isprintable():  # the usual case, which must be fast for the many lines of --explain
        return text
    return "".join(letter if letter.isprintable() else letter.encode("unicode_escape").decode()
                   for letter in text)


def quoted(line: str) -> str:
    """Returns a line as an error quotes it: in quotation marks, with escapes, and cut if it is
    long."""
    return repr(line) if len(line) <= SHORT else repr(line[:SHORT]) + ".."


class Help(argparse.RawDescriptionHelpFormatter):
    """A formatter of help that keeps the lines of texts."""

    def __init__(self, prog: str) -> None:
        super().__init__(prog, max_help_position=28, width=WIDTH)


class Parser(argparse.ArgumentParser):
    """A parser of a tool's words that prints an error as one line."""

    def error(self, message: str) -> NoReturn:
        """Prints one line and ends with status 2."""
        complain(self.prog, f"{message} ({self.prog} --help tells the words)")
        sys.exit(2)


def filled(text: str) -> str:
    """Returns the text with its paragraphs filled, except those that have an indented line."""
    parts = text.split("\n\n")
    return "\n\n".join(
        part if re.search(r"^ ", part, re.MULTILINE) else
        textwrap.fill(part, WIDTH, break_long_words=False, break_on_hyphens=False) for part in parts)


def new_parser(name: str, usage: str, description: str, epilog: str) -> Parser:
    """Returns a parser of a tool's words. Its help ends with what is the same for all tools."""
    parser = Parser(prog=name, usage=usage, description=filled(description),
                    epilog=filled(f"{epilog}\n\n{UNPROVED}"), formatter_class=Help, allow_abbrev=False)
    parser.add_argument("--version", action="version", version=f"{name} {VERSION}",
                        help="print the version and exit")
    return parser


def split_words(words: Sequence[str]) -> tuple[list[str], list[str] | None]:
    """Returns the tool's own words, and those of the program after the first `--`, or None if
    there is no `--`."""
    if "--" not in words:
        return list(words), None
    place = list(words).index("--")
    return list(words[:place]), list(words[place + 1:])


def parse_own(parser: Parser, own: list[str], program_words: list[str] | None) -> argparse.Namespace:
    """Returns the tool's own words, parsed. If one is unknown and there are no words of the program, the error says that these come after
    `--`."""
    given, unknown = parser.parse_known_args(own)
    if unknown:
        where = "" if program_words is not None else "; the program's own words come after --"
        parser.error(f"unrecognized arguments: {' '.join(unknown)}{where}")
    return given


def shown_name(path: str) -> str:
    """Returns a file's name for an error."""
    return "standard input" if path == "-" else path


# Checks the first bytes of a file: returns why the rest shouldn't be read, or None.
Judge = Callable[[bytes], Optional[str]]


class Kind(NamedTuple):
    """What a file should be: its name for errors, its greatest length in bytes, whether it is a
    text, the check of its first bytes, and whether it may be compressed. The length and the checks
    are then those of the unpacked content."""

    what: str
    limit: int
    is_text: bool = True
    judge: Judge | None = None
    may_be_compressed: bool = False


TEXT = Kind("text", LONGEST)
# no kernel's log buffer is longer
LOG = Kind("text of a log", 64 << 20, may_be_compressed=True)


def read_limited(file: BinaryIO, name: str, kind: Kind, hint: str = "") -> bytes:
    """Returns all bytes of a file, up to the limit of its kind; a hint is added to the error.

    # Errors
    A Trouble if there are more bytes than the limit, if a text has a zero byte, or if its first
    bytes are refused.
    """
    parts: list[bytes] = []
    size = 0
    while True:
        part = file.read(min(1 << 20, kind.limit + 1 - size))
        if not part:
            return b"".join(parts)
        size += len(part)
        if size > kind.limit:
            raise Trouble(f"{name}: no {kind.what}: longer than {kind.limit} bytes{hint}")
        if kind.is_text and b"\0" in part:
            raise Trouble(f"{name}: no {kind.what}: it has a zero byte{hint}")
        if kind.is_text and not parts and part.startswith(b"\xef\xbb\xbf"):
            raise Trouble(f"{name}: it begins with a UTF-8 mark, the bytes ef bb bf: save it without one")
        why = kind.judge(part) if kind.judge and not parts else None
        if why:
            raise Trouble(f"{name}: {why}{hint}")
        parts.append(part)


def read_bytes(path: str, kind: Kind, hint: str = "") -> bytes:
    """Returns the bytes of a file, or of standard input if the path is `-`.

    # Errors
    As `read_limited`.
    """
    if path == "-":
        if sys.stdin is None:
            raise Trouble(f"standard input is closed{hint}")
        return read_whole(cast(BufferedReader, sys.stdin.buffer), path, kind, hint)
    with open(path, "rb") as file:
        return read_whole(file, path, kind, hint)


def read_whole(file: BufferedReader, path: str, kind: Kind, hint: str) -> bytes:
    """Returns the bytes of a file of this path, unpacked if its kind may be compressed.

    # Errors
    As `read_limited`, or a Trouble if it is compressed and can't be unpacked.
    """
    name = shown_name(path)
    mark = file.peek(compressed.LONGEST_MARK) if kind.may_be_compressed else b""
    packer = compressed.name_of(mark)
    if packer is None:
        return read_limited(file, name, kind, hint)
    unpacked = compressed.opened(file, packer)
    if unpacked is None:
        raise Trouble(
            f"{name}: it is compressed by {packer}, which this Python has no module for: unpack it "
            f"by {packer} -d",
            next_command=f"{packer} -d {shlex.quote(path)}" if path != "-" else None,
        )
    try:
        return read_limited(unpacked, name, kind, hint)
    except compressed.ERRORS as error:
        if getattr(error, "errno", None):
            raise
        raise Trouble(f"{name}: it is compressed by {packer}, and not whole: {error}") from error


def read_text(path: str, behind: bool = False, kind: Kind = TEXT) -> str:
    """Returns the text of a file, or of standard input if the path is `-`. `behind` means that an
    error may propose the program's words after `--` instead.

    # Errors
    A Trouble if standard input is a terminal, or as `read_limited`.
    """
    hint = BEHIND if behind else ""
    if path == "-" and sys.stdin is not None and sys.stdin.isatty():
        raise Trouble(f"nothing to read: name a file{hint}", 2)
    return read_bytes(path, kind, hint).decode("utf-8", "replace")


def write_files(files: Mapping[str, bytes]) -> None:
    """Writes all of these files or, if one can't be written, none. Each is first written under a
    temporary name; then all are renamed.

    What isn't a plain file, such as a device, is written directly.
    """
    made: dict[str, str] = {}
    with contextlib.ExitStack() as undo:
        for path, data in files.items():
            if os.path.exists(path) and not stat.S_ISREG(os.stat(path).st_mode):
                with open(path, "wb") as device:
                    device.write(data)
                continue
            try:
                folder = os.path.dirname(os.path.realpath(path))
                handle, made[path] = tempfile.mkstemp(prefix=".", dir=folder)
            except OSError as error:
                raise OSError(error.errno, error.strerror, path) from error
            undo.callback(remove_quietly, made[path])
            try:
                with open(handle, "wb") as file:
                    file.write(data)
                os.chmod(made[path], mode_of(path))
            except OSError as error:
                raise OSError(error.errno, error.strerror, path) from error
        for path, temporary in made.items():
            os.replace(temporary, os.path.realpath(path))
        undo.pop_all()


def refuse_over(outputs: Sequence[str], read: Sequence[str]) -> None:
    """Refuses to write over a file that is read.

    # Errors
    A Trouble for the first output that is also an input; a device may be both.
    """
    files = {os.path.realpath(path) for path in read if os.path.isfile(path)}
    for path in outputs:
        if os.path.realpath(path) in files:
            raise Trouble(f"{path}: it is read, and would be written over")


def mode_of(path: str) -> int:
    """Returns the mode of a file, or the mode of a new file if it doesn't exist."""
    if os.path.exists(path):
        return stat.S_IMODE(os.stat(path).st_mode)
    mask = os.umask(0)
    os.umask(mask)
    return 0o666 & ~mask


def remove_quietly(path: str) -> None:
    """Removes a file, if it is there."""
    with contextlib.suppress(OSError):
        os.remove(path)


def write_output(text: str, path: str | None = None) -> None:
    """Writes a text to a file, whole or not at all, or to standard output if the path is None or
    `-`."""
    if path in (None, "-"):
        sys.stdout.buffer.write(text.encode("utf-8", "surrogateescape"))
    else:
        write_files({str(path): text.encode("utf-8", "surrogateescape")})
