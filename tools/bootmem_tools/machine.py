"""Facts about a machine that several tools use: the files in a folder of collect.sh, the resources
that its kernel shows, its line as the kernel reads it, and whether Linux 6.1 is known to panic."""

from __future__ import annotations

import os
import re
from typing import Iterator, NamedTuple

from bootmem_tools import command_line
from bootmem_tools.ranges import FRAME
from bootmem_tools.reports import MEMORY, Texts, memory_of, spans
from bootmem_tools.grammar import read_lines
from bootmem_tools.inputs import PAGE_SIZE
from bootmem_tools.tool import Kind, read_text

FILES = (("--e820ext", "e820ext.bin"), ("--srat", "srat.bin"), ("--efi", "efi.bin"))
REACH = 1 << 46  # the end of the addresses that page tables of four levels reach
FEW = 256  # if fewer frames than this are in no block, numa_meminfo_cover_memory accepts the blocks
NO_SRAT = ("srat: the kernel has several nodes, but the folder has no srat.bin, so bootmem takes "
           "all memory for node 0")
SIGNATURE = 0x1C0  # offset of efi_info's signature in the zero page: EL64 or EL32 with UEFI firmware
SHOWN = Kind("text of a kernel", 64 << 20)  # a text that the kernel showed, in a machine's folder


class Resource(NamedTuple):
    """A line of /proc/iomem, and how deep it is nested."""

    first: int
    last: int
    depth: int
    name: str


def read_iomem(text: str) -> list[Resource]:
    """Returns the resources of /proc/iomem; lines of another form are ignored."""
    found = []
    for line in text.splitlines():
        match = re.fullmatch(r"( *)([0-9a-f]{1,16})-([0-9a-f]{1,16}) : (.*)", line)
        if match:
            first, last = int(match.group(2), 16), int(match.group(3), 16)
            found.append(Resource(first, last, len(match.group(1)) // 2, match.group(4)))
    return found


def image_place(resources: list[Resource]) -> str | None:
    """Returns the place of the kernel's image in the form of --kernel, or None if none is shown. It
    is `Kernel code` to `Kernel bss`, in whole frames."""
    own = [one for one in resources if one.name.startswith("Kernel ") and one.last]
    if not any(one.name == "Kernel code" for one in own):
        return None
    base = min(one.first for one in own) // FRAME * FRAME
    size = (max(one.last for one in own) - base) // FRAME * FRAME + FRAME
    return f"{base:#x},{size:#x}"


def text_in(folder: str, name: str) -> str | None:
    """Returns the text of a file of the folder, or None if there is none."""
    path = os.path.join(folder, name)
    return read_text(path, kind=SHOWN) if os.path.exists(path) and not os.path.isdir(path) else None


def kernel_in(folder: str) -> str | None:
    """Returns the kernel's place from a folder of collect.sh: from its file `kernel`, else from
    `words` (as under examples/), else from its iomem; None if none of them has it."""
    told = text_in(folder, "kernel")
    words = (text_in(folder, "words") or "").split()
    if told is None and "--kernel" in words[:-1]:
        told = words[words.index("--kernel") + 1]
    if told is not None:
        return told.strip()
    return image_place(read_iomem(text_in(folder, "iomem") or ""))


def lacks_srat(folder: str) -> bool:
    """Returns whether a folder of collect.sh has no SRAT, though its kernel shows several nodes."""
    has_nodes = re.search(r"^Node [1-9]", text_in(folder, "zoneinfo") or "", re.MULTILINE)
    return bool(has_nodes) and not os.path.lexists(os.path.join(folder, "srat.bin"))


def files_in(folder: str) -> list[str]:
    """Returns the program's words for the extension, the SRAT and the EFI memory map of a folder
    of collect.sh, by their names in it."""
    return [word for pair in FILES if os.path.exists(os.path.join(folder, pair[1])) for word in pair]


def line_in(program: str, folder: str) -> command_line.Reading:
    """Returns the folder's command line as the kernel reads it, with total memory by the folder's
    map."""
    path = os.path.join(folder, "cmdline")
    data = command_line.read_file(path) if os.path.exists(path) else b""
    words = files_in(folder)
    extension = words[:2] if "--e820ext" in words else []
    total = command_line.total_by(program, extension + ["zp.bin"], folder)
    return command_line.read_line(data, total)


def is_uefi(path: str) -> bool:
    """Returns whether the zero page in this file is from a machine with UEFI firmware."""
    with open(path, "rb") as file:
        return file.read(PAGE_SIZE)[SIGNATURE:SIGNATURE + 4] in (b"EL64", b"EL32")


def panics(texts: Texts) -> Iterator[str]:
    """Yields the known reasons why Linux 6.1 panics on a boot with these reports `map` and `nodes`,
    on which bootmem goes on."""
    memory = [run for run in spans("map", texts["map"]) if run.fields["type"] in MEMORY]
    nodes = list(read_lines("nodes", texts["nodes"]))
    uncovered = sum(int(line.fields["uncovered"]) for line in nodes if line.kind == "uncovered")
    used = any(line.kind == "numa" and line.fields["name"] == "used" for line in nodes)
    if used and 0 < uncovered < FEW:
        yield (f"{uncovered} frames of memory are in no block of the SRAT: "
               "fewer than 256 pass the kernel's test, and it panics later "
               '(docs/KERNEL.md, "Nodes")')
    if memory and memory[-1].fields["type"] == "128":
        yield ('the last memory has type 128, which the kernel\'s limit leaves out, and it panics '
               '(docs/KERNEL.md, "Memory and the two tables")')
    if memory and memory[-1].last >= REACH:
        yield ("there is memory at 2^46 or above, out of reach of page tables of four levels, "
               'and the kernel panics (docs/KERNEL.md, "Memory and the two tables")')


def memory_size(texts: Texts) -> int:
    """Returns the bytes of memory that the report `map` has."""
    return sum(last + 1 - first for first, last in memory_of(texts))
