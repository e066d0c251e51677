"""Calls libbootmem, the library for the memory set-up of x86-64 Linux 6.1 at boot, without starting
a process.

    >>> from bootmem_tools import library
    >>> from bootmem_tools.inputs import RAM, zero_page
    >>> page = zero_page([(0, 0x9fc00, RAM), (0x100000, 0x7ff00000, RAM)])
    >>> library.map_runs(["zp.bin"], {"zp.bin": page})[-1]
    MapRun(base=1048576, size=2146435072, type=1)
    >>> library.run(["--report", "map", "zp.bin"], {"zp.bin": page}).decode().splitlines()[-1]
    '0x0000000000100000..0x000000007fffffff 1 usable'

The shared object is libbootmem.so of the system's folders, or the one that the environment's
BOOTMEM_LIB names. Any number of threads may call the library at once: it has no state.
"""

from __future__ import annotations

import ctypes
import os
import shlex
from typing import Any, Mapping, NamedTuple, Sequence, Union

from bootmem_tools import next_step

# Zones: below 16 MiB, from there to 4 GiB, and above.
DMA, DMA32, NORMAL = 0, 1, 2

# Whether there is a crash area, or why not: the command line requests none, no free range fits it,
# its range is in use, or no range below 4 GiB fits its low part.
NOT_REQUESTED, CRASH_RESERVED, NO_AREA, IN_USE, LOW_FAILED = range(5)

# The profile of a boot: that of `bootmem`, or that of `bootmem61`, which has three rules of Linux
# 6.1 and early claims.
OWN, LINUX_6_1 = 0, 1

# Words and names of files are texts or bytes.
Text = Union[str, bytes]
Words = Sequence[Text]
Files = Mapping[Any, bytes]

_REASONS = {2: "usage", 3: "unread", 5: "faulty", 6: "stopped", 7: "memory"}


class MapRun(NamedTuple):
    """A run of the map: base and size in bytes, and the E820 type."""

    base: int
    size: int
    type: int


class CrashArea(NamedTuple):
    """The crash area and its part below 4 GiB: base and size in bytes, 0 if there is none. `state`
    is CRASH_RESERVED, or says why there is none."""

    base: int
    size: int
    low_base: int
    low_size: int
    state: int


class MemoryRange(NamedTuple):
    """A record of memblock's memory table: base and size in bytes, flags (2: mirrored), node."""

    base: int
    size: int
    flags: int
    node: int


class Node(NamedTuple):
    """A node that has memory, and its proximity domain, or None if the SRAT isn't used."""

    node: int
    domain: int | None


class ZoneSpan(NamedTuple):
    """The frames that a node spans in a zone: the first, one past the last, and how many of them
    belong to this node and zone."""

    start: int
    end: int
    present: int
    node: int
    zone: int


class FreeBlock(NamedTuple):
    """A free block: 2^order frames of 4,096 bytes from the frame of that number on."""

    first: int
    order: int
    node: int
    zone: int


class Refused(Exception):
    """The program made no report. `status` and `reason` say why, and the text is the program's line
    on what is wrong."""

    def __init__(self, status: int, line: str) -> None:
        super().__init__(line)
        self.status = status
        self.reason = _REASONS[status]


class _Bytes(ctypes.Structure):
    """struct bootmem_bytes."""

    _fields_ = [("at", ctypes.c_char_p), ("len", ctypes.c_size_t)]


class _File(ctypes.Structure):
    """struct bootmem_file."""

    _fields_ = [("name", _Bytes), ("bytes", _Bytes)]


class _Text(ctypes.Structure):
    """struct bootmem_text."""

    _fields_ = [("at", ctypes.POINTER(ctypes.c_char)), ("room", ctypes.c_size_t),
                ("needed", ctypes.c_size_t)]


class _MapRun(ctypes.Structure):
    """struct bootmem_map_run."""

    _fields_ = [("base", ctypes.c_uint64), ("size", ctypes.c_uint64), ("type", ctypes.c_uint32)]


class _MapRuns(ctypes.Structure):
    """struct bootmem_map_runs."""

    _fields_ = [("at", ctypes.POINTER(_MapRun)), ("room", ctypes.c_size_t),
                ("count", ctypes.c_size_t)]


class _CrashArea(ctypes.Structure):
    """struct bootmem_crash_area."""

    _fields_ = [(name, ctypes.c_uint64) for name in CrashArea._fields[:4]] + [
        ("state", ctypes.c_uint32)]


class _MemoryRange(ctypes.Structure):
    """struct bootmem_memory_range."""

    _fields_ = [("base", ctypes.c_uint64), ("size", ctypes.c_uint64), ("flags", ctypes.c_uint32),
                ("node", ctypes.c_uint32)]


class _MemoryRanges(ctypes.Structure):
    """struct bootmem_memory_ranges."""

    _fields_ = [("at", ctypes.POINTER(_MemoryRange)), ("room", ctypes.c_size_t),
                ("count", ctypes.c_size_t)]


class _MemoryNode(ctypes.Structure):
    """struct bootmem_memory_node."""

    _fields_ = [("node", ctypes.c_uint32), ("domain", ctypes.c_uint32),
                ("has_domain", ctypes.c_uint32)]


class _MemoryNodes(ctypes.Structure):
    """struct bootmem_memory_nodes."""

    _fields_ = [("at", ctypes.POINTER(_MemoryNode)), ("room", ctypes.c_size_t),
                ("count", ctypes.c_size_t)]


class _ZoneSpan(ctypes.Structure):
    """struct bootmem_zone_span."""

    _fields_ = [("start", ctypes.c_uint64), ("end", ctypes.c_uint64), ("present", ctypes.c_uint64),
                ("node", ctypes.c_uint32), ("zone", ctypes.c_uint32)]


class _ZoneSpans(ctypes.Structure):
    """struct bootmem_zone_spans."""

    _fields_ = [("at", ctypes.POINTER(_ZoneSpan)), ("room", ctypes.c_size_t),
                ("count", ctypes.c_size_t)]


class _FreeBlock(ctypes.Structure):
    """struct bootmem_free_block."""

    _fields_ = [("first", ctypes.c_uint64), ("order", ctypes.c_uint32), ("node", ctypes.c_uint32),
                ("zone", ctypes.c_uint32)]


class _FreeBlocks(ctypes.Structure):
    """struct bootmem_free_blocks."""

    _fields_ = [("at", ctypes.POINTER(_FreeBlock)), ("room", ctypes.c_size_t),
                ("count", ctypes.c_size_t)]


_EXPORTS: dict[str, list[type[ctypes.Structure]]] = {
    "bootmem_run_as": [_Text, _Text], "bootmem_map": [_MapRuns], "bootmem_crash_as": [_CrashArea],
    "bootmem_memory_as": [_MemoryRanges], "bootmem_nodes_as": [_MemoryNodes],
    "bootmem_zones_as": [_ZoneSpans], "bootmem_blocks_as": [_FreeBlocks]}
_MISSING = """{0}. One of these helps:
  - set BOOTMEM_LIB to the path of libbootmem.so ('make lib' builds it at the top of bootmem's \
sources)
  - install the package bootmem-dev ('make deb' makes it), or run 'make install' after 'make lib'
  - without the library, run the program as a process: bootmem_tools.runner, or 'bootmem-json', \
which prints the reports as JSON"""
_libraries: list[ctypes.CDLL] = []


def _opened() -> ctypes.CDLL:
    """Opens the shared object.

    # Errors
    An OSError if there is none; it says what to do.
    """
    try:
        return ctypes.CDLL(os.environ.get("BOOTMEM_LIB", "libbootmem.so"))
    except OSError as error:
        raise OSError(_MISSING.format(error) + _next_line()) from None


def _next_line() -> str:
    """Returns a line with the command that builds the library, or that sets BOOTMEM_LIB if it is
    built; an empty text outside the sources."""
    top = next_step.top_of_clone()
    if top is None:
        return ""
    built = os.path.join(top, "libbootmem.so")
    named = f"export BOOTMEM_LIB={shlex.quote(built)}"
    return f"\nnext: {named if os.path.exists(built) else next_step.make('lib')}"


def _loaded() -> ctypes.CDLL:
    """Returns the library. The first call loads it."""
    if not _libraries:
        library = _opened()
        lent = [ctypes.POINTER(_Bytes), ctypes.c_size_t, ctypes.POINTER(_File), ctypes.c_size_t]
        for export, outs in _EXPORTS.items():
            getattr(library, export).restype = ctypes.c_uint8
            first = [ctypes.c_uint32] if export.endswith("_as") else []
            getattr(library, export).argtypes = first + lent + [ctypes.POINTER(out) for out in outs]
        library.bootmem_version.restype = ctypes.c_uint32
        _libraries.append(library)
    return _libraries[0]


def version() -> tuple[int, int, int]:
    """Returns the library's version: major, minor, patch."""
    number = int(_loaded().bootmem_version())
    return number // 1000000, number // 1000 % 1000, number % 1000


def _lent(text: Text) -> _Bytes:
    """Returns a structure with the bytes of a word or of a file; they live as long as it does."""
    held = text.encode() if isinstance(text, str) else bytes(text)
    return _Bytes(held, len(held))


def _lent_all(words: Words, files: Files) -> tuple[Any, int, Any, int]:
    """Returns the arguments for the words and files of a call."""
    lent_words = (_Bytes * max(len(words), 1))(*map(_lent, words))
    lent_files = (_File * max(len(files), 1))(
        *(_File(_lent(name), _lent(held)) for name, held in files.items()))
    return lent_words, len(words), lent_files, len(files)


class _Room:
    """A buffer for a text that a call writes."""

    def __init__(self, room: int) -> None:
        self.buffer = (ctypes.c_char * room)()
        self.text = _Text(ctypes.cast(self.buffer, ctypes.POINTER(ctypes.c_char)), room, 0)

    def fits(self) -> bool:
        """Returns whether the text did fit."""
        return bool(self.text.needed <= self.text.room)

    def taken(self) -> bytes:
        """Returns the text."""
        return ctypes.string_at(self.buffer, self.text.needed)


def call(words: Words, files: Files, room: int = 1 << 16, *,
         profile: int = OWN) -> tuple[int, bytes, bytes]:
    """Runs the program as one call. Returns its status, the reports, and the line of a failure.

    `words` are the words after the program's name, and `files` has the bytes of each file by its
    name. With the profile LINUX_6_1 the program is `bootmem61`. Any profile other than OWN and
    LINUX_6_1 gives status 2.
    """
    lent = _lent_all(words, files)
    out, err = _Room(room), _Room(1 << 10)
    while True:
        status = _loaded().bootmem_run_as(
            profile, *lent, ctypes.byref(out.text), ctypes.byref(err.text))
        if out.fits() and err.fits():
            return status, out.taken(), err.taken()
        out, err = (_Room(max(one.text.needed, one.text.room)) for one in (out, err))


def run(words: Words, files: Files, *, profile: int = OWN) -> bytes:
    """Returns the reports on the boot by a profile.

    # Errors
    A Refused if there are none.
    """
    status, out, err = call(words, files, profile=profile)
    if status:
        raise Refused(status, err.decode("utf-8", "replace").rstrip("\n"))
    return out


def _accept(status: int, words: Words, files: Files, profile: int) -> None:
    """Raises a Refused with the program's line, unless the status of a call that returns values is
    0."""
    if status:
        line = call(words, files, profile=profile)[2]
        raise Refused(status, line.decode("utf-8", "replace").rstrip("\n"))


def _values(export: str, values: Any, value: Any, words: Words, files: Files, room: int,
            profile: int) -> Any:
    """Returns all values of a call that fills a buffer with them. Only an export whose name ends in
    `_as` has the profile as an argument."""
    lent = _lent_all(words, files)
    first = (profile,) if export.endswith("_as") else ()
    while True:
        places = (value * max(room, 1))()
        out = values(places, room, 0)
        status = getattr(_loaded(), export)(*first, *lent, ctypes.byref(out))
        _accept(status, words, files, profile)
        if out.count <= room:
            return places[:out.count]
        room = out.count


def map_runs(words: Words, files: Files, room: int = 1 << 10) -> list[MapRun]:
    """Returns the map that the kernel works with, ascending. It doesn't depend on the profile, so the
    words are those of `bootmem`, without `--claims`.

    # Errors
    A Refused, as `run`.
    """
    runs = _values("bootmem_map", _MapRuns, _MapRun, words, files, room, OWN)
    return [MapRun(one.base, one.size, one.type) for one in runs]


def crash_area(words: Words, files: Files, *, profile: int = OWN) -> CrashArea:
    """Returns the crash area, or why there is none.

    # Errors
    A Refused, as `run`.
    """
    out = _CrashArea()
    lent = _lent_all(words, files)
    status = _loaded().bootmem_crash_as(profile, *lent, ctypes.byref(out))
    _accept(status, words, files, profile)
    return CrashArea(out.base, out.size, out.low_base, out.low_size, out.state)


def memory_ranges(words: Words, files: Files, room: int = 1 << 10, *,
                  profile: int = OWN) -> list[MemoryRange]:
    """Returns the records of memory, ascending.

    # Errors
    A Refused, as `run`.
    """
    ranges = _values(
        "bootmem_memory_as", _MemoryRanges, _MemoryRange, words, files, room, profile)
    return [MemoryRange(one.base, one.size, one.flags, one.node) for one in ranges]


def nodes(words: Words, files: Files, room: int = 1 << 10, *,
          profile: int = OWN) -> list[Node]:
    """Returns the nodes that have memory, ascending.

    # Errors
    A Refused, as `run`.
    """
    found = _values(
        "bootmem_nodes_as", _MemoryNodes, _MemoryNode, words, files, room, profile)
    return [Node(one.node, one.domain if one.has_domain else None) for one in found]


def zone_spans(words: Words, files: Files, room: int = 1 << 10, *,
               profile: int = OWN) -> list[ZoneSpan]:
    """Returns the zones that have memory, by node and then by zone.

    # Errors
    A Refused, as `run`.
    """
    spans = _values(
        "bootmem_zones_as", _ZoneSpans, _ZoneSpan, words, files, room, profile)
    return [ZoneSpan(one.start, one.end, one.present, one.node, one.zone) for one in spans]


def free_blocks(words: Words, files: Files, room: int = 1 << 10, *,
                profile: int = OWN) -> list[FreeBlock]:
    """Returns the free blocks at the handover, ascending.

    # Errors
    A Refused, as `run`.
    """
    blocks = _values(
        "bootmem_blocks_as", _FreeBlocks, _FreeBlock, words, files, room, profile)
    return [FreeBlock(block.first, block.order, block.node, block.zone) for block in blocks]
