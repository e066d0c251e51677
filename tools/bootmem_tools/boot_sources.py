"""Reads a boot's inputs from their sources: a kernel's log, a list of entries, /sys/firmware/memmap,
/proc/iomem, or a folder with such files, as sosreport makes it."""

from __future__ import annotations

import os
import re
from typing import Callable, Optional

from bootmem_tools import firmware_map, kernel_log, log_srat, machine, tool
from bootmem_tools.inputs import Entry, Initrd

# The logs of the kernel in a folder with a whole system's files, including those of sosreport.
LOGS = (
    "sos_commands/kernel/dmesg",
    "sos_commands/general/dmesg_now",
    "sos_commands/general/dmesg",
    "dmesg",
    "sos_commands/logs/journalctl_--no-pager_--boot",
    "sos_commands/logs/journalctl_--no-pager_--catalog_--boot",
    "var/log/dmesg",
    "var/log/kern.log",
    "var/log/messages",
)
MEMMAP, IOMEM, LINE = "sys/firmware/memmap", "proc/iomem", "proc/cmdline"
TABLES = {"srat": "sys/firmware/acpi/tables/SRAT", "slit": "sys/firmware/acpi/tables/SLIT"}
SHOWN = ("zoneinfo", "buddyinfo")
ZERO_PAGE = "sys/kernel/boot_params/data"
RELEASES = ("proc/sys/kernel/osrelease", "sos_commands/kernel/uname_-a", "uname")
TABLE = tool.Kind("ACPI table", 1 << 20, is_text=False)
STAMPED = re.compile(r"\[ *\d+\.\d+\]")  # a line of dmesg
LONG = 950  # a log may have cut lines with this many letters (LOG_LINE_MAX is 1,024 with the prefix)
UNLISTED = ("the firmware is UEFI, and the log doesn't list its descriptors, as a kernel does with efi=debug: "
            "what boot services have isn't known, and the crash area may lie lower than by these inputs")
UNNAMED = "no initrd; --initrd names one, --no-initrd says that there is none"


class Boot:
    """The inputs of a boot that were found. For each of them, the first source that has it counts."""

    def __init__(self, say: Callable[[str], None]) -> None:
        self.say = say
        self.entries: list[Entry] = []
        self.initrd: Initrd | None = None
        self.descriptors: list[kernel_log.Descriptor] = []
        self.kernel: str | None = None
        self.files: dict[str, bytes] = {}  # by their names in a folder of bootmem-collect
        self.lacks_initrd: str | None = None  # why no initrd is known
        self.has_log = False

    def put(self, name: str, data: bytes | None) -> None:
        """Keeps a file, unless it has no bytes or is kept already."""
        if data:
            self.files.setdefault(name, data)

    def read(self, path: str) -> None:
        """Adds what a source has.

        # Errors
        A Trouble if it can't be read, or hasn't the form of its kind.
        """
        if firmware_map.is_memmap(path):
            self.take_entries(firmware_map.entries_of_memmap(path), "the firmware's map")
        elif path != "-" and os.path.isdir(path):
            self.read_tree(path)
        else:
            self.read_text(tool.read_text(path, kind=tool.LOG))

    def read_text(self, text: str) -> None:
        """Adds what a log, a list of entries or a text of /proc/iomem has."""
        lines = [(number, kernel_log.clean(line)) for number, line in enumerate(text.splitlines(), 1)]
        if any("BIOS-e820" in line for _, line in lines):
            self.read_log(lines)
        elif firmware_map.is_iomem(text):
            self.read_iomem(text)
        elif lines and all(STAMPED.match(line) for _, line in lines):
            raise tool.Trouble("a log without lines 'BIOS-e820: [mem ..] type': if dmesg has lost the first lines of the boot, "
                               "journalctl -k -b or /var/log/dmesg may have them")
        else:
            self.take_entries(kernel_log.entries_of_list(lines), "a list")

    def take_entries(self, entries: list[Entry], what: str) -> None:
        """Keeps a map from a source that doesn't know the initrd."""
        if not self.entries:
            self.entries, self.lacks_initrd = entries, f"{what} tells of {UNNAMED}"

    def read_log(self, lines: kernel_log.Numbered) -> None:
        """Adds what the last boot of a log has."""
        lines, boots = kernel_log.last_boot(lines)
        if boots > 1:
            self.say(f"the log has {boots} boots: the last is taken")
        self.has_log = True
        entries = kernel_log.entries_of_log(lines)
        if entries and not self.entries:
            self.entries, self.initrd = entries, kernel_log.initrd_of_log(lines)
            self.lacks_initrd = f"no line RAMDISK: the zero page names {UNNAMED}"
        self.descriptors = self.descriptors or kernel_log.descriptors_of_log(lines)
        if not self.descriptors and kernel_log.is_uefi(lines):
            self.say(UNLISTED)
        self.kernel = self.kernel or kernel_log.image_of_log(lines)
        self.put_line(kernel_log.line_of_log(lines))
        self.put("release", text_of(kernel_log.release_of_log(lines)))
        found = log_srat.read_srat(lines)
        if "srat.bin" not in self.files:
            for note in found.notes:
                self.say(note)
        self.put("srat.bin", found.table)

    def put_line(self, line: str | None) -> None:
        """Keeps the command line of a log."""
        if line is not None and len(line) >= LONG and "cmdline" not in self.files:
            self.say(f"the line 'Command line:' has {len(line)} letters: the log may have cut it")
        self.put("cmdline", text_of(line))

    def read_iomem(self, text: str) -> None:
        """Adds what a text of /proc/iomem has: the map, and the image's place."""
        self.take_entries(firmware_map.entries_of_iomem(text), "/proc/iomem")
        self.kernel = self.kernel or machine.image_place(machine.read_iomem(text))
        self.put("iomem", text.encode())

    def read_tree(self, folder: str) -> None:
        """Adds what a folder with the files of a whole system has.

        # Errors
        A Trouble if it has no map.
        """
        if os.path.exists(os.path.join(folder, ZERO_PAGE)):
            self.say(f"{folder} has the zero page itself: bootmem-collect --sys {folder}/sys --proc {folder}/proc takes it as it is")
        for name, place in TABLES.items():
            self.put(f"{name}.bin", part_of(folder, place, TABLE))
        self.put("cmdline", part_of(folder, LINE, tool.LOG))
        log = next((lines for lines in map(lambda name: log_in(folder, name), LOGS) if lines), None)
        if log:
            self.read_log(log)
        if firmware_map.is_memmap(os.path.join(folder, MEMMAP)):
            self.read(os.path.join(folder, MEMMAP))
        iomem = part_of(folder, IOMEM, tool.LOG)
        if iomem:
            self.read_shown(iomem.decode("utf-8", "replace"))
        for name in SHOWN:
            self.put(name, part_of(folder, f"proc/{name}", tool.LOG))
        self.put("release", release_in(folder))
        if not self.entries:
            raise tool.Trouble(f"{folder}: no memory map in it: no {MEMMAP}, no {IOMEM} with addresses, and no log of a kernel's start")

    def read_shown(self, text: str) -> None:
        """Adds what a folder's /proc/iomem has, unless the kernel hid its addresses."""
        try:
            self.read_iomem(text)
        except tool.Trouble as trouble:
            self.say(str(trouble))


def text_of(line: str | None) -> bytes | None:
    """Returns a line's bytes, or None."""
    return None if line is None else f"{line}\n".encode("utf-8", "surrogateescape")


def part_of(folder: str, name: str, kind: tool.Kind) -> Optional[bytes]:
    """Returns the bytes of a file of the folder, or None if there is none that can be read."""
    try:
        return tool.read_bytes(os.path.join(folder, name), kind)
    except (OSError, tool.Trouble):
        return None


def log_in(folder: str, name: str) -> kernel_log.Numbered | None:
    """Returns the lines of a log of the folder that has a kernel's start, or None."""
    data = part_of(folder, name, tool.LOG)
    if data is None or kernel_log.HEAD.encode() not in data:
        return None
    text = data.decode("utf-8", "replace")
    return [(number, kernel_log.clean(line)) for number, line in enumerate(text.splitlines(), 1)]


def release_in(folder: str) -> bytes | None:
    """Returns the kernel's release from a folder's files, or None."""
    for name in RELEASES:
        words = (part_of(folder, name, tool.TEXT) or b"").split()
        if words:
            return (words[2] if words[0] == b"Linux" and len(words) > 2 else words[0]) + b"\n"
    return None
