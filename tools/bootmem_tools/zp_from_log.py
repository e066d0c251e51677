"""zp-from-log: a boot's inputs from a kernel's log, or from what a kernel or a sosreport shows of
its memory."""

from __future__ import annotations

import argparse
import os
import shlex
from typing import NoReturn, Optional, Sequence

from bootmem_tools import boot_sources, inputs, ranges, tool
from bootmem_tools.inputs import EXTENSION_ROOM, ROOM, Entry, Initrd

NAME = "zp-from-log"
USAGE = """zp-from-log --output ZP [--e820ext EXT] [--srat SRAT] [--efi EFI]
                   [--initrd BASE,SIZE | --no-initrd] [SOURCE]..
       zp-from-log --folder FOLDER [--kernel BASE,SIZE]
                   [--initrd BASE,SIZE | --no-initrd] [SOURCE].."""
ABOUT = """Makes the zero page that bootmem reads from the firmware's memory map in a kernel's log (dmesg, journalctl -k, a
serial console; with time stamps or without):

    BIOS-e820: [mem 0x0000000000100000-0x000000007ffdefff] usable

or from another SOURCE, below. With --folder it makes all of a boot's inputs that SOURCE has, in a folder as
bootmem-collect makes one."""
EPILOG = """SOURCE is standard input if there is none or it is -, else a file or a folder:

  a log        of a kernel, compressed or not
  a list       of a base, a size and a type, its name or its number, in a line:
               0x100000 2046M usable
  iomem        a text of /proc/iomem, read by root: the map after mem= and
               memmap=, and the place of the kernel's image
  memmap       /sys/firmware/memmap or a copy of it: the firmware's map, and
               memory that was added after boot
  a folder     of a sosreport, or another one with proc/ and sys/ of a machine:
               its log, iomem, memmap, command line and ACPI tables

Of each kind the first source that has it counts. Types by name: usable, reserved, ACPI data, ACPI NVS, unusable,
persistent (type 7), persistent (type 12), soft reserved, type N.

Lines `extended: [mem ..]`, which the kernel prints if the boot loader handed over an extension, have the whole
map and are taken instead. Of a log with several boots the last is taken. A kernel's log has the map as the kernel
settled it. It doesn't show how the firmware's entries overlapped, but bootmem's map is the same.

A zero page has room for 128 entries; the others go to EXT, which is always written if it is named.

The initrd is that of the log's line `RAMDISK: [mem ..]`, in whole frames, or of --initrd.

SRAT gets the processors and ranges of memory that the kernel logged as it read the table, in their order:

    SRAT: PXM 1 -> APIC 0x01 -> Node 1
    ACPI: SRAT: Node 1 PXM 1 [mem 0x80000000-0xbfffffff]

If UEFI firmware handed over its own map, a kernel with efi=debug lists its descriptors; EFI gets them:

    efi: mem00: [Conventional| | .. |WB|WT|WC|UC] range=[0x..-0x..] (0MB)

Of what it lists the first list is taken, from mem00 on; a later one is that of the runtime services' addresses.

FOLDER gets zp.bin, e820ext.bin, cmdline, srat.bin, slit.bin, efi.bin, kernel, iomem, zoneinfo, buddyinfo and release, as
far as SOURCE has them; other files of these names are removed. What is written, and the command to run next, go to
standard output. The place of the kernel's image (kernel) is that of --kernel or of iomem, or that of a log with memblock=debug;
without it 16 MiB to 48 MiB is assumed.

exit status: 0; 1 if nothing could be made; 2 for words that aren't those above.

example:
  dmesg | zp-from-log --output zp.bin --e820ext ext.bin
  bootmem --report map --e820ext ext.bin zp.bin
  dmesg | zp-from-log --folder here"""

# The files in a folder of bootmem-collect, each with its description.
FILES = {
    "zp.bin": "zero page",
    "e820ext.bin": "the E820 extension",
    "cmdline": "command line",
    "srat.bin": "SRAT",
    "slit.bin": "SLIT",
    "efi.bin": "EFI's descriptors",
    "kernel": "the place of its image",
    "iomem": "resources",
    "zoneinfo": "zones",
    "buddyinfo": "free blocks",
    "release": "the kernel's release",
}
WORDS = {
    "cmdline": "--cmdline",
    "e820ext.bin": "--e820ext",
    "srat.bin": "--srat",
    "efi.bin": "--efi",
}


def read_initrd(text: str) -> Initrd | None:
    """Returns base and size of a text `BASE,SIZE`, or None."""
    initrd = ranges.parse_pair(text)
    return initrd if initrd and sum(initrd) <= ranges.TOP - (ranges.FRAME - 1) else None


def read_words(words: list[str]) -> argparse.Namespace:
    """Returns the tool's words."""
    parser = tool.new_parser(NAME, USAGE, ABOUT, EPILOG)
    parser.add_argument("sources", metavar="SOURCE", nargs="*", help="a log, a list, iomem, memmap or a folder")
    parser.add_argument("--output", metavar="ZP", help="the file of the zero page")
    parser.add_argument("--e820ext", metavar="EXT", help="the file of the extension")
    parser.add_argument("--srat", metavar="SRAT", help="the file of the ACPI table SRAT")
    parser.add_argument("--efi", metavar="EFI", help="the file of the EFI memory map")
    parser.add_argument("--folder", metavar="FOLDER", help="write all inputs into FOLDER")
    parser.add_argument("--kernel", metavar="BASE,SIZE", help="where the kernel's image lies")
    which = parser.add_mutually_exclusive_group()
    which.add_argument("--initrd", metavar="BASE,SIZE", help="where the initrd lies")
    which.add_argument("--no-initrd", action="store_true", help="no initrd, whatever the log says")
    given = parser.parse_args(words)
    if (given.output is None) == (given.folder is None):
        parser.error("one of --output and --folder, with what is to be written")
    if given.folder is not None and (given.e820ext or given.srat or given.efi):
        parser.error("--folder beside --e820ext, --srat or --efi")
    if given.kernel is not None and (given.folder is None or ranges.parse_pair(given.kernel) is None):
        parser.error(f"--kernel {given.kernel}: two sizes with a comma between, and beside --folder alone")
    if given.initrd is not None:
        initrd = read_initrd(given.initrd)
        if initrd is None:
            parser.error(f"{given.initrd}: no initrd: two sizes above 0 with a comma between, such as 0x7fed4000,1M")
        given.initrd = initrd
    return given


def choose_initrd(given: argparse.Namespace, boot: boot_sources.Boot) -> Initrd | None:
    """Returns the initrd from the words or from the sources. Prints a line on standard error if
    neither has one."""
    if given.no_initrd or given.initrd:
        named: Optional[Initrd] = given.initrd
        return named
    if boot.initrd is None and boot.lacks_initrd:
        tool.complain(NAME, boot.lacks_initrd)
    return boot.initrd


def check_entries(entries: Sequence[Entry], has_extension: bool) -> None:
    """Refuses a map that doesn't fit into a zero page and an extension."""
    if not entries:
        raise tool.Trouble("no line 'BIOS-e820: [mem 0x..-0x..] type', and no line 'base size type'")
    if len(entries) < 2:
        raise tool.Trouble("one entry alone: a zero page has two at least")
    if len(entries) > ROOM and not has_extension:
        raise tool.Trouble(f"{len(entries)} entries: a zero page has {ROOM} at most; --e820ext names the file of the others")
    if len(entries) > ROOM + EXTENSION_ROOM:
        raise tool.Trouble(f"{len(entries)} entries: zero page and extension have {ROOM + EXTENSION_ROOM} at most")


def files_of(boot: boot_sources.Boot, initrd: Initrd | None) -> dict[str, bytes]:
    """Returns all files that the sources give, by their names in a folder."""
    found = {"zp.bin": inputs.zero_page(boot.entries[:ROOM], initrd), **boot.files}
    if boot.entries[ROOM:]:
        found["e820ext.bin"] = inputs.extension(boot.entries[ROOM:])
    if boot.descriptors:
        found["efi.bin"] = inputs.efi_map(boot.descriptors)
    if boot.kernel:
        found["kernel"] = f"{boot.kernel}\n".encode()
    return found


def named_files(given: argparse.Namespace, boot: boot_sources.Boot, found: dict[str, bytes]) -> dict[str, bytes]:
    """Returns the files that the words name.

    # Errors
    A Trouble if the sources don't give one of them.
    """
    files = {given.output: found["zp.bin"]}
    if given.e820ext is not None:
        files[given.e820ext] = inputs.extension(boot.entries[ROOM:])
    if given.efi is not None:
        if "efi.bin" not in found:
            raise tool.Trouble("no line 'efi: mem00: [..] range=[..]': a kernel lists EFI's descriptors with efi=debug in its command line")
        files[given.efi] = found["efi.bin"]
    if given.srat is not None:
        if "srat.bin" not in found:
            raise tool.Trouble("no line 'SRAT: Node 0 PXM 0 [mem ..]': the machine has no SRAT, or the log lacks what the kernel read of it")
        files[given.srat] = found["srat.bin"]
    return files


def write_folder(folder: str, found: dict[str, bytes]) -> None:
    """Writes the files of a folder, removes the others of FILES there, and prints what was written
    and the command to run next."""
    os.makedirs(folder, exist_ok=True)
    tool.write_files({os.path.join(folder, name): data for name, data in found.items()})
    for name, what in FILES.items():
        if name not in found:
            tool.remove_quietly(os.path.join(folder, name))
        elif name in ("kernel", "release"):
            print(f"{name}: {what}, {found[name].decode('utf-8', 'replace').strip()}")
        else:
            print(f"{name}: {what}, {len(found[name])} bytes")
    if "kernel" not in found:
        tool.complain(NAME, "kernel: its place isn't told, so 16 MiB to 48 MiB is assumed where --kernel BASE,SIZE doesn't tell it")
    words = [word for name, option in WORDS.items() if name in found for word in (option, name)]
    words += ["--kernel", found["kernel"].decode().strip()] if "kernel" in found else []
    print(f"next: cd {shlex.quote(folder)} && bootmem {' '.join(words + ['zp.bin'])}")


def main(words: list[str]) -> int:
    """Writes the zero page and the other files that the words name, or all files of a folder."""
    given = read_words(words)
    sources = given.sources or ["-"]
    named = [path for path in (given.output, given.e820ext, given.srat, given.efi) if path is not None]
    tool.refuse_over(named or [os.path.join(given.folder, name) for name in FILES], sources)
    boot = boot_sources.Boot(lambda line: tool.complain(NAME, line))
    boot.kernel = given.kernel
    for source in sources:
        boot.read(source)
    check_entries(boot.entries, given.folder is not None or given.e820ext is not None)
    found = files_of(boot, choose_initrd(given, boot))
    if given.folder is not None:
        if boot.has_log and "cmdline" not in found:
            tool.complain(NAME, "no line 'Command line:': it is taken as empty, without mem=, memmap= and crashkernel=")
        write_folder(given.folder, found)
    else:
        tool.write_files(named_files(given, boot, found))
    return 0


def command() -> NoReturn:
    """Runs the tool as a command."""
    tool.run_tool(NAME, main)


if __name__ == "__main__":
    command()
