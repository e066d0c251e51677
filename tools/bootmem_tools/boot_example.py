"""boot-example: a machine for examples/, from one boot of a kernel under QEMU."""

from __future__ import annotations

import argparse
import json
import os
import re
import shutil
import socket
import struct
import subprocess
import tempfile
import time
from typing import Any, Iterator, Mapping, NamedTuple, NoReturn, Sequence

from bootmem_tools import claims_from_log as claims
from bootmem_tools import inputs, kernel_log, ranges, tool

NAME = "boot-example"
USAGE = """boot-example --kernel VMLINUZ --output FOLDER [--line WORDS]
                    [--initrd FILE] [--timeout SECONDS] -- QEMU WORDS.."""
ABOUT = """Boots a kernel under QEMU and writes a machine of examples/ into FOLDER: what the kernel
was given (zp.bin, cmdline, e820ext.bin, srat.bin, slit.bin, efi.bin), the words of bootmem
(words) and those of bootmem-linux besides (linux), the kernel's log up to handover (log), the
texts that the log confirms (map.txt, memory.txt, nodes.txt, crash.txt), and the boot's claims as
a script with the places that the kernel had (replay/)."""
FIXED_LINE = "console=ttyS0 memblock=debug ignore_loglevel panic=-1 efi=debug"
EPILOG = f"""QEMU WORDS.. is the command that makes the machine: its board, memory, processors,
firmware and nodes. The tool adds the kernel, an initrd, the kernel's line, a serial line, a
monitor, and words for a machine without display or network. The kernel's line is

    {FIXED_LINE}

and then WORDS of --line. Without --initrd the initrd is 1 MiB that no kernel unpacks: the
boot ends as soon as the log has the line that counts memory. The zero page, nodes of setup_data
and ACPI's tables are then read from the machine's memory.

VMLINUZ is a bzImage, or the ELF image that is packed in it: QEMU enters that by PVH, which saves an
emulator most of the time, and which KASLR and UEFI firmware don't have.

The program isn't run: each text comes from the kernel's log. zones.txt isn't made, since its free
frames are a rule of this project. nodes.txt is only made if the log has no SRAT, or if the kernel
used it. The log must begin with the line `Linux version`; a kernel whose early log is longer than its
buffer needs log_buf_len= in WORDS.

FOLDER may exist; files of these names in it are replaced. What was written goes to standard output.

exit status: 0; 1 if the boot didn't come so far, or its log lacks something; 2 for words that
aren't those above.

example:
  boot-example --kernel vmlinuz --output examples/q35-1g-plain \\
      --line 'nokaslr crashkernel=64M' -- qemu-system-x86_64 -M q35 -m 1G"""

SERIAL = tool.Kind("serial line", 64 << 20)
INITRD = b"boot-example\n" * ((1 << 20) // 13)
# Marks of a zero page with their places: of a boot loader's header, of EFI's stub, and, after an
# entry by PVH, the version and the loader (init_pvh_bootparams).
MARKS = ((b"HdrS", 0x202), (b"EL64", 0x1C0), (b"\x0c\x02" + bytes(8) + b"\xb0", 0x206))
SETUP_DATA = 0x250  # the offset in a zero page of the address of setup_data's first node
SETUP_E820_EXT = 1  # the type of a node whose data are entries of the map
NODE_HEAD = 16  # bytes of a node before its data: next, type, length
FIVE_LEVELS = 1 << 12  # CR4.LA57
POLL = 1.0  # seconds between two looks at the serial line


class Monitor:
    """QEMU's monitor (QMP), through which the machine's memory is read."""

    def __init__(self, folder: str) -> None:
        self.path = os.path.join(folder, "monitor")
        self.dump = os.path.join(folder, "memory")
        self.line = socket.socket(socket.AF_UNIX)
        self.line.connect(self.path)
        self.file = self.line.makefile("rb")
        self.file.readline()  # the greeting
        self.execute("qmp_capabilities")

    def execute(self, name: str, **arguments: Any) -> Any:
        """Runs a command and returns its result.

        # Errors
        Trouble: it fails, or QEMU ends.
        """
        words = {"execute": name, "arguments": arguments}
        self.line.sendall(json.dumps(words).encode() + b"\n")
        for text in self.file:
            answer = json.loads(text)
            if "return" in answer:
                return answer["return"]
            if "error" in answer:
                raise tool.Trouble(f"QEMU's monitor refuses {name}: {answer['error'].get('desc')}")
        raise tool.Trouble("QEMU ended before its memory was read")

    def memory(self, first: int, size: int) -> bytes:
        """Returns bytes of the machine's physical memory."""
        self.execute("pmemsave", val=first, size=size, filename=self.dump)
        with open(self.dump, "rb") as file:
            return file.read()

    def has_five_levels(self) -> bool:
        """Returns whether the kernel's page tables have five levels."""
        said = self.execute("human-monitor-command", **{"command-line": "info registers"})
        match = re.search(r"CR4=([0-9a-f]+)", said)
        return bool(match and int(match.group(1), 16) & FIVE_LEVELS)

    def close(self) -> None:
        """Ends the connection."""
        self.file.close()
        self.line.close()


class Boot(NamedTuple):
    """What was read from one boot: the lines of the kernel's log, the place of its image, the zero
    page, the entries of its extension, ACPI's tables by name, and whether page tables have five
    levels."""

    log: list[str]
    image: ranges.Range
    page: bytes
    entries: bytes
    tables: Mapping[str, bytes]
    has_five_levels: bool


def log_lines(console: str) -> list[str]:
    """Returns the kernel's log from its first line up to the one that counts memory.

    # Errors
    Trouble: one of the two is missing, for example because the log's buffer was too short.
    """
    plain = re.sub(r"\x1b\[[0-9;=?]*[A-Za-z]", "", console).replace("\r", "").split("\n")
    first = next((n for n, line in enumerate(plain) if "Linux version" in line), None)
    last = next((n for n, line in enumerate(plain) if claims.END.search(line)), None)
    if last is None:
        raise tool.Trouble("the serial line has no log up to the line 'Memory: ..K/..K available'")
    if first is None or last < first:
        raise tool.Trouble(
            "the log's first lines are lost: give the kernel a longer buffer, log_buf_len=4M"
        )
    return plain[first : last + 1]


def zero_page_of(image: bytes) -> bytes:
    """Returns the kernel's copy of the zero page from its image (boot_params). It is found by the
    mark of a boot loader, of EFI's stub, or of an entry by PVH, which leaves two copies.

    # Errors
    Trouble: there is none, or there are different ones.
    """
    found = set()
    for mark, offset in MARKS:
        place = image.find(mark)
        while place >= 0:
            first = place - offset
            page = image[first : first + inputs.PAGE_SIZE]
            if first >= 0 and len(page) == inputs.PAGE_SIZE and has_entries(page):
                found.add(page)
            place = image.find(mark, place + 1)
    if len(found) != 1:
        raise tool.Trouble(f"the kernel's image has {len(found)} zero pages, and not one")
    return found.pop()


def has_entries(page: bytes) -> bool:
    """Returns whether a page could be a zero page: it names a loader, and has entries of known
    types, none of which is empty."""
    count = page[inputs.COUNT]
    if not page[inputs.LOADER_TYPE] or not 2 <= count <= inputs.ROOM:
        return False
    entries = inputs.entries_of(page[inputs.ENTRIES : inputs.ENTRIES + 20 * count])
    return all(size and kind in kernel_log.NAMES for _, size, kind in entries)


def extension_entries(monitor: Monitor, page: bytes) -> bytes:
    """Returns the entries of the nodes of setup_data of type 1, in the order of the list."""
    place, found = struct.unpack_from("<Q", page, SETUP_DATA)[0], b""
    seen = set()
    while place and place not in seen:
        seen.add(place)
        after, kind, length = struct.unpack("<QII", monitor.memory(place, NODE_HEAD))
        if kind == SETUP_E820_EXT:
            found += monitor.memory(place + NODE_HEAD, length)
        place = after
    return found


def acpi_tables(monitor: Monitor, log: Sequence[str]) -> Iterator[tuple[str, bytes]]:
    """Yields SRAT and SLIT, read from the addresses in the log."""
    for line in log:
        match = re.search(r"ACPI: (SRAT|SLIT) 0x([0-9A-F]+) ([0-9A-F]{6}) ", line)
        if match:
            first, size = int(match.group(2), 16), int(match.group(3), 16)
            yield match.group(1), monitor.memory(first, size)


def read_boot(monitor: Monitor, console: str) -> Boot:
    """Reads the boot from the machine's memory once its log is there.

    # Errors
    Trouble: the log or the memory lacks something.
    """
    log = log_lines(console)
    image = claims.image_of(claims.read_log(log))
    if image is None:
        raise tool.Trouble("the log doesn't tell where the kernel's image lies")
    page = zero_page_of(monitor.memory(image[0], image[1] + 1 - image[0]))
    entries = extension_entries(monitor, page)
    tables = dict(acpi_tables(monitor, log))
    return Boot(log, image, page, entries, tables, monitor.has_five_levels())


def run_qemu(given: argparse.Namespace, qemu: Sequence[str]) -> Boot:
    """Boots the machine and returns what was read from it.

    # Errors
    Trouble: QEMU ends before the kernel's log is there, or the log isn't there in time.
    """
    with tempfile.TemporaryDirectory(prefix="boot-example.") as folder:
        paths = {name: os.path.join(folder, name) for name in ("initrd", "console", "monitor")}
        with open(paths["initrd"], "wb") as file:
            file.write(INITRD)
        words = ["-kernel", given.kernel, "-initrd", given.initrd or paths["initrd"]]
        words += ["-append", f"{FIXED_LINE} {given.line}".strip()]
        words += ["-serial", f"file:{paths['console']}", "-monitor", "none"]
        words += ["-qmp", f"unix:{paths['monitor']},server=on,wait=off"]
        words += "-display none -no-reboot -nic none".split()
        with open(os.path.join(folder, "said"), "w+b") as said:
            with subprocess.Popen(
                [*qemu, *words], stdin=subprocess.DEVNULL, stdout=said, stderr=said
            ) as emulator:
                try:
                    console = await_log(emulator, paths["console"], given.timeout, said.name)
                    monitor = Monitor(folder)
                    monitor.execute("stop")
                    boot = read_boot(monitor, console)
                    monitor.close()
                    return boot
                finally:
                    emulator.kill()


def await_log(
    emulator: subprocess.Popen[bytes], path: str, seconds: float, said: str
) -> str:
    """Returns the text of the serial line once it has the line that counts memory.

    # Errors
    Trouble: QEMU ends earlier, or the line isn't there in time.
    """
    end = time.monotonic() + seconds
    while True:
        ended = emulator.poll() is not None
        text = tool.read_text(path, kind=SERIAL) if os.path.exists(path) else ""
        match = claims.END.search(text)
        if match and "\n" in text[match.end() :]:
            return text
        if ended:
            words = tool.read_text(said).strip().splitlines()[:1]
            what = f"QEMU ended with status {emulator.returncode}"
            raise tool.Trouble(": ".join([what, *words]) + last_line(text))
        if time.monotonic() > end:
            raise tool.Trouble(
                f"the kernel didn't count its memory in {seconds:g} seconds; --timeout gives it"
                f" longer{last_line(text)}"
            )
        time.sleep(POLL)


def last_line(text: str) -> str:
    """Returns what to add to an error: the last line of the serial console, if there is one."""
    lines = [line for line in text.splitlines() if line.strip()]
    return f"; the serial line ends with {tool.quoted(lines[-1])}" if lines else ""


def given_files(boot: Boot) -> dict[str, bytes]:
    """Returns the kernel's inputs as files that bootmem reads.

    # Errors
    Trouble: the log has no command line.
    """
    numbered = [(number, kernel_log.clean(line)) for number, line in enumerate(boot.log, 1)]
    line = kernel_log.line_of_log(numbered)
    if line is None:
        raise tool.Trouble("the log has no line 'Command line: ..'")
    files = {"zp.bin": boot.page, "cmdline": claims.text_of([line])}
    if boot.entries:
        head = struct.pack("<QII", 0, SETUP_E820_EXT, len(boot.entries))
        files["e820ext.bin"] = head + boot.entries
    for name, table in (("srat.bin", "SRAT"), ("slit.bin", "SLIT")):
        if table in boot.tables:
            files[name] = boot.tables[table]
    descriptors = kernel_log.descriptors_of_log(numbered)
    if descriptors:
        files["efi.bin"] = inputs.efi_map(descriptors)
    return files


OPTIONS = (
    ("--cmdline", "cmdline"),
    ("--e820ext", "e820ext.bin"),
    ("--srat", "srat.bin"),
    ("--slit", "slit.bin"),
    ("--efi", "efi.bin"),
)


def word_files(boot: Boot, files: Mapping[str, bytes]) -> dict[str, bytes]:
    """Returns the files with the words of bootmem and with those that only bootmem-linux needs."""
    words = [word for option, name in OPTIONS if name in files for word in (option, name)]
    words += ["--kernel", claims.kernel_text(boot.image)]
    words += ["--la57", "zp.bin"] if boot.has_five_levels else ["zp.bin"]
    found = {"words": claims.text_of([" ".join(words)])}
    if any("Using GB pages for direct mapping" in line for line in boot.log):
        found["linux"] = b"--pages 1G\n"
    return found


def replay_files(log: claims.Log, image: ranges.Range) -> dict[str, bytes]:
    """Returns the boot's claims as a script, its inputs, and what the kernel's own memblock
    answered to each line."""
    files, _ = claims.replay_files(log, image)
    places = dict(line.split(": ", 1) for line in files.pop("places").decode().splitlines())
    script = files["script"].decode().splitlines()
    files["script.txt"] = claims.text_of(
        f"{number}: {places.get(str(number), 'done')}" for number in range(1, len(script) + 1)
    )
    return {f"replay/{name}": data for name, data in files.items()}


def example_files(boot: Boot) -> dict[str, bytes]:
    """Returns the files of the machine."""
    log = claims.read_log(boot.log)
    files = given_files(boot)
    files |= word_files(boot, files)
    files["log"] = claims.text_of(boot.log)
    texts = {
        "map.txt": kernel_log.map_text(boot.log),
        "memory.txt": kernel_log.memory_text(boot.log),
        "nodes.txt": kernel_log.nodes_text(boot.log),
        "crash.txt": crash_text(log),
    }
    files |= {name: text.encode() for name, text in texts.items() if text}
    return files | replay_files(log, boot.image)


def crash_text(log: claims.Log) -> str:
    """Returns the report `crash` made from the log's claims, or an empty text without a crash area."""
    found = [claim.place for claim in log.claims if claims.is_crash(claim) and claim.place]
    return "".join(
        f"crash {what} {ranges.hex_text(first)}..{ranges.hex_text(last)}\n"
        for what, (first, last) in zip(("at", "low"), found)
    )


def write_folder(folder: str, files: Mapping[str, bytes]) -> None:
    """Writes the files into the folder, and prints their names and sizes."""
    os.makedirs(os.path.join(folder, "replay"), exist_ok=True)
    tool.write_files({os.path.join(folder, name): data for name, data in files.items()})
    for name in sorted(files):
        print(f"{name}: {len(files[name])} bytes")


def read_words(words: list[str], qemu: list[str] | None) -> argparse.Namespace:
    """Returns the tool's words; `qemu` has those after `--`."""
    parser = tool.new_parser(NAME, USAGE, ABOUT, EPILOG)
    parser.add_argument("--kernel", metavar="VMLINUZ", required=True, help="the kernel")
    parser.add_argument("--output", metavar="FOLDER", required=True, help="the folder to write")
    parser.add_argument("--line", metavar="WORDS", default="", help="more words of the kernel's line")
    parser.add_argument("--initrd", metavar="FILE", help="an initrd; without it 1 MiB of its own")
    parser.add_argument(
        "--timeout",
        metavar="SECONDS",
        type=float,
        default=600.0,
        help="how long the boot may take (600)",
    )
    given = parser.parse_args(words)
    if not qemu:
        parser.error("QEMU's command, after --")
    return given


def check_needs(given: argparse.Namespace, qemu: str) -> None:
    """Checks that QEMU and the kernel are there.

    # Errors
    Trouble: one is missing; its line names it.
    """
    if shutil.which(qemu) is None:
        raise tool.Trouble(
            f"{qemu}: no program that can be run; QEMU is needed (Debian: qemu-system-x86)"
        )
    if not os.path.isfile(given.kernel):
        raise tool.Trouble(f"{given.kernel}: no such file; it is the kernel")


def main(words: list[str]) -> int:
    """Boots the machine and writes its folder."""
    own, qemu = tool.split_words(words)
    given = read_words(own, qemu)
    command_words = qemu or []
    check_needs(given, command_words[0])
    write_folder(given.output, example_files(run_qemu(given, command_words)))
    return 0


def command() -> NoReturn:
    """Runs the tool as a command."""
    tool.run_tool(NAME, main)


if __name__ == "__main__":
    command()
