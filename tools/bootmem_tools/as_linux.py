"""Prepares a boot's inputs as Linux 6.1 reads them, and writes the kernel's early claims as a
claims file of bootmem61. bootmem-linux and other tools use it."""

from __future__ import annotations

import argparse
import contextlib
import os
import struct
import tempfile
from typing import Iterator, NamedTuple, Sequence

from bootmem_tools import (
    command_line,
    direct_map,
    explain,
    inputs,
    linux_claims,
    linux_cma,
    linux_log,
    linux_map,
    linux_srat,
    next_step,
    notes,
    ranges,
    runner,
    tool,
    words,
)
from bootmem_tools.grammar import read_lines
from bootmem_tools.reports import Span as Entry
from bootmem_tools.reports import Texts, spans

LINUX = "bootmem-linux"
PAGES = {"4K": 4096, "2M": direct_map.PMD, "1G": direct_map.PUD}
READ = ("cmdline", "e820ext", "srat", "slit", "efi")  # the files that are read here
IMAGE = 16 * ranges.MIB, 48 * ranges.MIB  # the place of the kernel's image that bootmem assumes
FILE = tool.Kind("input of bootmem", 64 << 20, is_text=False)
SOFT = str(inputs.SOFT_RESERVED)
MIRRORED = 0x10000  # EFI_MEMORY_MORE_RELIABLE
MADE = ("log_buf_len", "cma", "hugetlb_cma")  # options whose claims this module makes
OPTIONS = {name: value for name, value in words.BOOTMEM61.options.items() if name != "claims"}


class Settings(NamedTuple):
    """What no input of the program has: the largest page of the direct map and the bytes of brk in
    use, None if they are assumed; whether x2APIC mode is on and whether the kernel has CMA; and
    what its log has."""

    pages: str | None = None
    brk: int | None = None
    x2apic: bool = False
    cma: bool = False
    told: linux_log.Told = linux_log.NOTHING


class Prepared(NamedTuple):
    """The words of bootmem61 for a boot as Linux makes it.

    `core` are the words that decide what the kernel claims early, without reports and scripts.
    `texts` has the reports map, memory and nodes; it is empty if the program refuses the inputs.
    `line` is the command line, and `claims` are the early claims. `said` has one line for each
    thing that was changed or assumed, or can't be known. `place` is the note on an image that
    isn't all in RAM of the map, or None."""

    words: list[str]
    core: list[str]
    texts: Texts
    line: str
    claims: list[linux_claims.Claim]
    said: list[str]
    place: str | None = None


def add_options(parser: argparse.ArgumentParser) -> None:
    """Adds the options for what no input has."""
    parser.add_argument(
        "--pages",
        metavar="SIZE",
        action="append",
        default=[],
        help=(
            "largest page of the direct map: 4K, 2M, or 1G where "
            "/proc/cpuinfo has pdpe1gb; 2M without it"
        ),
    )
    parser.add_argument(
        "--brk", metavar="BYTES", help=f"what brk has in use, {linux_claims.BRK} without it"
    )
    parser.add_argument(
        "--x2apic",
        action="store_true",
        help="the firmware left x2APIC mode on, so each x2APIC id can be used",
    )
    parser.add_argument(
        "--cma",
        action="store_true",
        help="the kernel has CONFIG_CMA and CONFIG_DMA_CMA, so cma= and hugetlb_cma= count",
    )


def add_log(parser: argparse.ArgumentParser) -> None:
    """Adds the option for the log of a machine's kernel."""
    parser.add_argument(
        "--log",
        metavar="FILE",
        help="a log of this kernel, compressed or not: it tells ACPI tables, EFI tables and nodes "
        "of setup_data",
    )


def add_raw(parser: argparse.ArgumentParser) -> None:
    """Adds the option for the program's own reading, and those for what no input has."""
    parser.add_argument(
        "--raw",
        action="store_true",
        help="the program's own reading of the inputs, without early claims",
    )
    add_options(parser)


def add_flag(parser: argparse.ArgumentParser) -> None:
    """Adds the option of a tool that runs the program for its user's words."""
    parser.add_argument(
        "--as-linux",
        action="store_true",
        help="the boot as Linux 6.1 makes it, as bootmem-linux does; WORDS are then those of it",
    )


def split_words(
    parser: argparse.ArgumentParser, given: Sequence[str]
) -> tuple[argparse.Namespace, Settings, list[str]]:
    """Splits a command line. Returns the words for a parser with the options of `add_options` and
    `add_log`, their settings, and the program's words."""
    own, rest = parser.parse_known_args(list(given))
    # bootmem has an option --pages, too, whose value is a file
    files = [value for value in own.pages if value not in PAGES and os.path.exists(value)]
    own.pages = [value for value in own.pages if value not in files]
    rest += [f"--pages={value}" for value in files]
    return own, settings_of(own, parser), rest


def settings_of(given: argparse.Namespace, parser: argparse.ArgumentParser) -> Settings:
    """Returns the settings of the tool's words; exits with status 2 for a malformed size."""
    size = None if given.brk is None else ranges.parse_size(given.brk)
    if given.brk is not None and size is None:
        parser.error(f"--brk {given.brk}: no size")
    for pages in given.pages:
        if pages not in PAGES:
            parser.error(f"--pages {pages}: none of {', '.join(PAGES)}")
    pages = given.pages[-1] if given.pages else None
    told = linux_log.read_log(getattr(given, "log", None))
    return Settings(pages, size, given.x2apic, given.cma, told)


class Given(NamedTuple):
    """The program's words: options by name with their values, and the path of the zero page."""

    options: dict[str, str]
    page: str


def read_program_words(rest: list[str]) -> Given | None:
    """Returns the program's words, or None if it will refuse them."""
    options: dict[str, str] = {}
    pages: list[str] = []
    left = iter(rest)
    for word in left:
        if not word.startswith("--"):
            pages.append(word)
            continue
        name, mark, value = word[2:].partition("=")
        if name == "claims":
            raise tool.Trouble(f"--claims: {LINUX} writes that file itself; --script takes more", 2)
        if name not in OPTIONS or name in options:
            return None
        if OPTIONS[name] and not mark:
            value = next(left, "")
        options[name] = value
    return Given(options, pages[0]) if len(pages) == 1 else None


class Boot:
    """A boot's inputs while they are prepared, in a folder of their own, and the notes on them."""

    def __init__(
        self, settings: Settings, given: Given, program: str, work: str, folder: str | None = None
    ) -> None:
        self.settings, self.given, self.program, self.work = settings, given, program, work
        self.told = settings.told
        self.folder = folder or ""
        self.page = self.read(given.page)
        self.files = {
            name: self.read(given.options[name]) for name in READ if name in given.options
        }
        self.node_length = len(self.files.get("e820ext", b""))  # as the loader made it
        self.line = ""
        self.texts: Texts = {}
        self.entries: list[Entry] = []  # of the report map
        self.claims: list[linux_claims.Claim] = []
        self.said: list[str] = []
        self.place: str | None = None
        pair = ranges.parse_pair(given.options.get("kernel", ""))
        self.image = (pair[0], sum(pair)) if pair else IMAGE

    def read(self, path: str) -> bytes:
        """Returns the bytes of an input."""
        return tool.read_bytes(os.path.join(self.folder, path), FILE)

    def say(self, kind: str, what: str) -> None:
        """Adds a note on what was changed or assumed, or can't be known."""
        self.said.append(f"{kind}: {what}")

    def write(self, name: str, data: bytes) -> str:
        """Writes an input into the folder, and returns its path."""
        path = os.path.join(self.work, name)
        with open(path, "wb") as file:
            file.write(data)
        return path

    def words(self, with_rest: bool) -> list[str]:
        """Returns the program's words for the prepared inputs, and writes these into the folder.
        Without the rest these are only the words that the tool's own runs need."""
        found = []
        for name, value in self.given.options.items():
            if name in READ:
                if name in self.files and (with_rest or name != "slit"):
                    found += [f"--{name}", self.write(name, self.files[name])]
            elif with_rest or name in ("kernel", "la57", "mirror", "bottom-up"):
                found += [f"--{name}"] + ([value] if OPTIONS[name] else [])
        for name in sorted(self.files.keys() - self.given.options.keys()):
            found += [f"--{name}", self.write(name, self.files[name])]
        if self.claims:
            lines = [line for line, _ in linux_claims.file_lines(self.claims)]
            found += ["--claims", self.write("claims", claims_file(lines))]
        return found + [self.write("zeropage", self.page)]

    def read_extension(self) -> None:
        """Drops the extension's first entry that ends beyond 2^64 with all that follow, and an
        incomplete entry at the end (__append_e820_table)."""
        data = self.files.get("e820ext")
        if data is None or len(data) < 16 or struct.unpack_from("<I", data, 8)[0] != 1:
            return
        size = min(struct.unpack_from("<I", data, 12)[0], len(data) - 16) // 20 * 20
        entries = inputs.entries_of(data[16 : 16 + size])
        far = next(
            (place for place, one in enumerate(entries) if one[0] + one[1] > 1 << 64), len(entries)
        )
        if far < len(entries):
            self.say(
                "changed",
                (
                    f"entry {far} of the extension goes beyond 2^64: it is dropped with all that"
                    " follow (__append_e820_table)"
                ),
            )
        if len(data) != 16 + 20 * far and far <= inputs.EXTENSION_ROOM:
            self.files["e820ext"] = inputs.extension(entries[:far])

    def read_line(self) -> None:
        """Reads the command line as the kernel does. EFI memory of specific purpose has the effect
        of add_efi_memmap."""
        base = (
            ["--e820ext", self.write("e820ext", self.files["e820ext"])]
            if "e820ext" in self.files
            else []
        )
        total = command_line.total_by(self.program, base + [self.write("zeropage", self.page)])
        reading = command_line.read_line(self.files.get("cmdline", b""), total, by_ranges=True)
        for change in reading.changes:
            self.say("changed", f"the line: {change}")
        for note in reading.notes:
            if not any(f" {name}=" in note for name in MADE):
                self.say("unknown", note)
        self.line = reading.line
        special = [
            one
            for one in linux_claims.read_descriptors(self.files.get("efi", b""))
            if one.kind == linux_claims.CONVENTIONAL
            and one.attributes & linux_claims.SPECIFIC_PURPOSE
        ]
        if special and "efi=nosoftreserve" not in self.line.split() and not self.adds_efi():
            self.say(
                "changed",
                (
                    "EFI has memory of specific purpose: its descriptors are added, as by"
                    f" {command_line.EFI} (do_efi_soft_reserve)"
                ),
            )
            self.line = f"{command_line.EFI} {self.line}"
        self.keep_line()

    def adds_efi(self) -> bool:
        """Returns whether the line adds EFI's map; the word may have a value
        (setup_add_efi_memmap)."""
        return any(word.name == command_line.EFI for word in command_line.words_of(self.line)[0])

    def keep_line(self) -> None:
        """Passes the line to the program, unless it is empty."""
        if self.line or "cmdline" in self.files:
            self.files["cmdline"] = self.line.encode("latin-1") + b"\n"

    def add_words(self, added: list[str]) -> None:
        """Adds words to the line's end, before a word `--`."""
        _, end = command_line.words_of(self.line)
        self.line = " ".join(
            part for part in (self.line[:end].rstrip(), *added, self.line[end:].lstrip()) if part
        )
        self.keep_line()

    def drop_descriptors(self) -> None:
        """Drops the descriptors of EFI's map that the kernel finds invalid. With add_efi_memmap the
        kernel adds them to its map before it drops them."""
        if "efi" not in self.files:
            return
        cleaned = linux_map.clean_descriptors(self.files["efi"])
        self.files["efi"] = cleaned.data
        for line in linux_map.dropped_lines(cleaned.dropped):
            self.say("changed", line)
        is_far = any(one.first < one.end for _, one in cleaned.dropped)
        if is_far and self.adds_efi():
            self.say(
                "unknown",
                (
                    f"with {command_line.EFI} the kernel adds what goes beyond 2^64 to its map"
                    " before it drops it, and the map may never settle (do_add_efi_memmap)"
                ),
            )

    def read_efi(self) -> None:
        """Clears the attribute of mirrored memory in EFI's descriptors, unless the line has
        kernelcore=mirror (memblock_mark_mirror)."""
        words_read = command_line.words_of(self.line)[0]
        data = bytearray(self.files.get("efi", b""))
        found = linux_claims.read_descriptors(bytes(data))
        if not any(one.attributes & MIRRORED for one in found) or any(
            (word.name, word.value) == ("kernelcore", "mirror") for word in words_read
        ):
            return
        stride: int = struct.unpack_from("<I", data)[0]
        for place in range(8 + 32, len(data) - stride + 41, stride):
            (attributes,) = struct.unpack_from("<Q", data, place)
            struct.pack_into("<Q", data, place, attributes & ~MIRRORED)
        self.files["efi"] = bytes(data)
        self.say(
            "changed",
            (
                "EFI has mirrored memory, but the line no kernelcore=mirror: it counts as any"
                " other (memblock_mark_mirror)"
            ),
        )

    def mark_setup_data(self) -> None:
        """Sets the type of RAM that holds nodes of setup_data to 128 (e820__reserve_setup_data)."""
        if not linux_claims.has_setup_data(self.page):
            return
        line = self.line
        nodes = linux_claims.setup_data(self.machine(), linux_claims.initrd_of(self.page))
        self.add_words([f"memmap={one.end - one.first:#x}%{one.first:#x}-1+128" for one in nodes])
        if len(self.line) > command_line.LONGEST:
            self.line = line
            self.keep_line()
            self.say(
                "unknown",
                "the type of setup_data's nodes: the line has no room for words that set it",
            )

    def read_srat(self) -> None:
        """Reads the SRAT as the kernel does."""
        if "srat" not in self.files:
            return
        reading = linux_srat.read_table(self.files["srat"], self.settings.x2apic)
        for change in reading.changes:
            self.say("changed", f"the SRAT: {change}")
        if reading.table is None:
            del self.files["srat"]
        else:
            self.files["srat"] = reading.table

    def read_slit(self) -> None:
        """Reads a SLIT with a wrong checksum as the kernel does."""
        table = self.files.get("slit", b"")
        if is_whole_slit(table) and sum(table) % 256:
            self.say(
                "changed",
                (
                    "the SLIT: its checksum is wrong: the kernel doesn't look at it that early"
                    " (acpi_table_parse)"
                ),
            )
            self.files["slit"] = inputs.sealed(table)

    def run(self) -> bool:
        """Keeps the reports of the map, of memory and of nodes; returns whether the program made
        them."""
        names = ["map", "memory", "nodes"]
        status, text, _ = runner.call_program(self.program, names, self.words(False))
        self.texts = runner.texts_of(names, text) if status == 0 else {}
        self.entries = list(spans("map", self.texts.get("map", [])))
        return status == 0

    def ram(self) -> list[direct_map.Span]:
        """Returns the usable RAM of the map."""
        return direct_map.united(
            (run.first, run.last + 1)
            for run in self.entries
            if run.fields["type"] == "1"
        )

    def restore_image(self) -> bool:
        """Makes the kernel's image RAM again if the map says otherwise (e820_add_kernel_range);
        returns whether the program still runs."""
        first, end = self.image[0], self.image[1] + linux_claims.END_AFTER_BRK
        self.place = notes.place_note(self.given.options.get("kernel"), self.texts)
        if direct_map.is_within(self.ram(), first, end):
            return True
        self.say(
            "changed",
            (
                f"the kernel's image isn't all RAM: {first:#x} to {end:#x}, with 192 KiB for brk,"
                " becomes RAM (e820_add_kernel_range)"
            ),
        )
        if self.adds_efi():
            self.settle_map(first, end)
            return self.run()
        self.add_words(
            [f"memmap={end - first:#x}%{first:#x}", f"memmap={end - first:#x}@{first:#x}"]
        )
        return self.run()

    def settle_map(self, first: int, end: int) -> None:
        """Writes the settled map, with EFI's entries and with this range as RAM, into the zero page
        and its extension, and drops the words that made the map from the line. EFI's entries come
        after all of these words, so no word could make the range RAM."""
        entries = [
            (run.first, run.last + 1 - run.first, int(run.fields["type"])) for run in self.entries
        ]
        try:
            self.page, more = linux_map.with_table(
                self.page, linux_map.with_ram(entries, first, end)
            )
        except ValueError as error:
            raise tool.Trouble(f"the map with the kernel's image as RAM: {error}", 2) from error
        self.files.pop("e820ext", None)
        if more is not None:
            self.files["e820ext"] = more
        self.line = linux_map.without_edits(self.line)
        self.files["cmdline"] = self.line.encode("latin-1") + b"\n"

    def largest_page(self) -> int:
        """Returns the largest page of the direct map; the line can forbid those of 1 GiB."""
        names = [word.name for word in command_line.words_of(self.line)[0]]
        largest = PAGES[self.settings.pages or "2M"]
        return min(largest, direct_map.PMD) if "nogbpages" in names else largest

    def machine(self) -> linux_claims.Machine:
        """Returns the facts about the machine that the rules of the claims use."""
        nodes = list(read_lines("nodes", self.texts["nodes"]))
        used = any(one.kind == "numa" and one.fields["name"] == "used" for one in nodes)
        ids = [int(one.fields["node"]) for one in nodes if "node" in one.fields]
        memory = direct_map.united(
            (one.first, one.last + 1) for one in spans("memory", self.texts["memory"])
        )
        soft = [
            (one.first, one.last + 1)
            for one in self.entries
            if one.fields["type"] == SOFT
        ]
        ram = self.ram()
        has_node = linux_claims.has_setup_data(self.page)
        extension = self.node_length if has_node else 0
        return linux_claims.Machine(
            self.page,
            self.line,
            memory,
            direct_map.down(ram[-1][1], ranges.FRAME) if ram else 0,
            soft,
            self.image,
            self.settings.brk or linux_claims.BRK,
            linux_claims.read_descriptors(self.files.get("efi", b"")),
            extension,
            self.largest_page(),
            "la57" in self.given.options,
            max(ids) + 1 if used and ids and is_valid_slit(self.files.get("slit", b"")) else 0,
            self.told,
        )

    def claim(self) -> None:
        """Determines the kernel's early claims."""
        machine = self.machine()
        outcome = linux_claims.early_claims(machine)
        self.claims = outcome.claims
        moved = next((one for one in self.claims if one.rule == linux_claims.MOVES), None)
        if moved:
            self.say(
                "changed",
                f"the initrd isn't mapped whole: it moves to {moved.first:#x} ({moved.rule})",
            )
        self.claim_areas(machine, outcome)

    def claim_areas(self, machine: linux_claims.Machine, outcome: linux_claims.Outcome) -> None:
        """Claims the areas of cma= and hugetlb_cma=, if the kernel has them. The kernel claims them
        after node data, which gets the highest places; so claiming them before moves nothing."""
        if not linux_cma.is_asked(self.line):
            return
        if not self.settings.cma:
            self.say(
                "assumed",
                (
                    "the kernel is built without CONFIG_CMA, as Debian's, so cma= and hugetlb_cma="
                    " claim nothing; --cma if it has it"
                ),
            )
            return
        names = ["owners", "nodes"]
        status, text, _ = runner.call_program(self.program, names, self.words(False))
        if status != 0:
            return
        texts = runner.texts_of(names, text)
        free = outcome.free
        for one in spans("owners", texts["owners"]):
            if one.name.startswith("node-data"):
                free.claim(one.first, one.last + 1)
        areas = linux_cma.areas(
            self.line,
            free,
            linux_cma.nodes_of(machine.memory, spans("nodes", texts["nodes"])),
            outcome.mapped,
            machine.largest == direct_map.PUD,
        )
        if "hugetlb_cma=" in self.line and machine.largest != direct_map.PUD:
            self.say(
                "assumed", "no pages of 1 GiB, so hugetlb_cma= claims nothing; --pages 1G if it has"
            )
        self.claims += [linux_claims.Claim(*span, what, rule) for span, what, rule in areas]

    def check_claims(self) -> None:
        """Adds a note on each early claim that the program can't make. Only a table that grew can be
        in the way, so a boot with few claims isn't checked."""
        if len(self.claims) < linux_claims.FEW:
            return
        for line, claim, answer in answered(self.program, self.words(False), self.claims):
            if answer and answer != "done" and not answer.startswith("at "):
                self.say("unknown", f"{claim.what} isn't claimed: {line}: {answer} ({claim.rule})")

    def explain(self) -> None:
        """Adds notes on what was assumed or can't be known."""
        if "kernel" not in self.given.options:
            self.say("assumed", runner.ASSUMED)
        if self.settings.pages is None:
            self.say(
                "assumed",
                "pages of the direct map up to 2 MiB; --pages 1G where /proc/cpuinfo has pdpe1gb",
            )
        if linux_claims.has_kaslr(self.page):
            self.say(
                "unknown",
                "KASLR: where the direct map begins, which can move places by a few pages",
            )
        if self.settings.brk is None:
            self.say(
                "assumed",
                "brk has 16 pages for page tables and one for DMI's texts in use; --brk tells it",
            )
        has_log = self.told.has_log
        tables = "the MP table claims" if has_log else "tables of ACPI and the MP table claim"
        self.say(
            "unknown",
            (
                f"what {tables} in RAM, ACPI tables in the initrd, and what drivers ask for later"
            ),
        )
        if linux_claims.has_setup_data(self.page) and not self.told.has_log:
            self.say("unknown", "nodes of setup_data after the first; --log tells them")
        if self.page[linux_claims.EFI_INFO : linux_claims.EFI_INFO + 4] in (b"EL64", b"EL32"):
            self.explain_efi()

    def explain_efi(self) -> None:
        """Adds notes on what can't be known about a boot with UEFI firmware."""
        if "efi" not in self.files:
            self.say(
                "unknown",
                (
                    "the firmware is UEFI and there is no --efi: what its boot services have"
                    " isn't claimed"
                ),
            )
        elif not any(
            one.kind in linux_claims.BOOT_SERVICES and not one.attributes & linux_claims.RUNTIME
            for one in linux_claims.read_descriptors(self.files["efi"])
        ):
            self.say(
                "unknown",
                (
                    "EFI's memory map has no boot services but those that a kernel keeps, so the"
                    " rest isn't claimed; the log of a boot with efi=debug has it"
                ),
            )
        for first, end in linux_claims.owned_services(self.machine()):
            if not any(first < one.end and one.first < end for one in self.claims):
                self.say(
                    "assumed",
                    (
                        f"boot services {ranges.range_text(first, end - 1)} stay free: by EFI's"
                        " memory map a part, whose place it doesn't have, was claimed before"
                    ),
                )
        self.say(
            "unknown",
            (
                "how long EFI's memory attributes and TPM log are: a frame each"
                if self.told.has_log
                else "where EFI's memory attributes and TPM log lie; --log tells it"
            ),
        )


def is_whole_slit(table: bytes) -> bool:
    """Returns whether a table is a SLIT with a whole header and of the length that this states."""
    return table[:4] == b"SLIT" and int.from_bytes(table[4:8], "little") == len(table) >= 44


def is_valid_slit(table: bytes) -> bool:
    """Returns whether the kernel takes the distances of a SLIT (slit_valid)."""
    if len(table) < 44 or table[:4] != b"SLIT":
        return False
    count: int = struct.unpack_from("<Q", table, 36)[0]
    rows = table[44:]
    return len(rows) >= count * count and all(
        (rows[i * count + j] == 10) if i == j else (rows[i * count + j] > 10)
        for i in range(count)
        for j in range(count)
    )


def claims_file(lines: Sequence[str]) -> bytes:
    """Returns a claims file of these lines.

    # Errors
    A Trouble if it is longer than the program reads.
    """
    data = "".join(f"{line}\n" for line in lines).encode()
    if len(data) > linux_claims.LONGEST:
        raise tool.Trouble(
            f"the early claims have {len(data)} bytes as lines: a claims file has"
            f" {linux_claims.LONGEST} at most",
            2,
        )
    return data


def answered(
    program: str, core: Sequence[str], claims: Sequence[linux_claims.Claim]
) -> Iterator[tuple[str, linux_claims.Claim, str]]:
    """Yields the lines of the claims file, each with its claim and the program's answer; the answer
    is empty if the boot stops."""
    status, text, _ = runner.call_program(program, ["claims"], core)
    answers = [line.partition(": ")[2] for line in text.splitlines()] * (status == 0)
    made = linux_claims.file_lines(claims)
    for (line, claim), answer in zip(made, answers or [""] * len(made)):
        yield line, claim, answer


def prepare(boot: Boot) -> Prepared:
    """Returns the program's words for the boot as the kernel makes it. If the program refuses the
    inputs, there are no early claims."""
    boot.read_extension()
    boot.read_line()
    boot.drop_descriptors()
    boot.read_efi()
    boot.read_srat()
    boot.read_slit()
    if boot.run() and boot.restore_image():
        boot.mark_setup_data()
        try:
            boot.claim()
            boot.check_claims()
        except direct_map.Exhausted:
            boot.say(
                "unknown",
                (
                    "no memory is left for a page table of the direct map, and the kernel panics"
                    " (alloc_low_pages)"
                ),
            )
        boot.explain()
    all_words, core = boot.words(True), boot.words(False)
    return Prepared(
        all_words, core, boot.texts, boot.line, boot.claims, boot.said, boot.place
    )


def refuse_itself(program: str) -> None:
    """Refuses bootmem-linux as the program of a tool that prepares the inputs itself."""
    if os.path.basename(program) == LINUX:
        raise tool.Trouble(f"{program}: this tool can't be its own program", 2)


@contextlib.contextmanager
def prepared(
    program: str, program_words: Sequence[str], settings: Settings, folder: str | None = None
) -> Iterator[Prepared]:
    """Prepares the inputs that the program's words name; paths are relative to the folder, if one is
    given. If the program will refuse the inputs, the words don't change.

    The files of the prepared inputs exist until the context ends."""
    refuse_itself(program)
    given = read_program_words(list(program_words))
    untouched = Prepared(list(program_words), [], {}, "", [], [])
    with tempfile.TemporaryDirectory() as work:
        try:
            boot = Boot(settings, given, program, work, folder) if given else None
        except OSError:
            boot = None
        yield prepare(boot) if boot and len(boot.page) == inputs.PAGE_SIZE else untouched


def lines_of(boot: Prepared) -> list[str]:
    """Returns the notes on a prepared boot, one line each."""
    note = notes.srat_note(notes.value_in(boot.words, "--srat"), boot.texts)
    return boot.said + ([note] if note else [])


def why_failed(status: int, said: str, given: Sequence[str]) -> str | None:
    """Returns why the program refused these words or couldn't read a file. Returns None if the
    words don't show it, or if the program printed more than one line, as the installed command
    does, which adds the reason itself."""
    name = runner.name_in(said)
    return explain.explain(name, status, given) if said.count(f"{name}: ") == 1 else None


def explained(failure: runner.Failed, names: Sequence[str], given: Sequence[str]) -> tool.Trouble:
    """Returns the error for a failed run, with the reason if the words show it."""
    why = why_failed(failure.ended, failure.said, ["--report", ",".join(names), *given])
    if not why:
        return failure
    name = runner.name_in(failure.said)
    return tool.Trouble(f"{failure}; {why}", next_command=next_for(failure.ended, name, given))


def next_for(status: int, name: str, given: Sequence[str]) -> str | None:
    """Returns the command that makes the file that the program of this name couldn't read, or
    None."""
    if status != explain.UNREADABLE:
        return None
    return next_step.for_missing(explain.files_of(name, given))


def run_explained(program: str, names: Sequence[str], given: Sequence[str]) -> Texts:
    """Returns the reports of these names for these words.

    # Errors
    A Trouble if the program doesn't end with status 0, with the reason if the words show it.
    """
    try:
        return runner.run_program(program, names, given)
    except runner.Failed as failure:
        raise explained(failure, names, given) from None


def run_for(
    name: str, named: str | None, names: Sequence[str], given: Sequence[str], is_linux: bool
) -> tuple[Texts, list[linux_claims.Claim]]:
    """Returns the reports of these names for its user's words, for a tool of this name, and the
    early claims: none unless the boot is to be as Linux makes it. `named` is the program that the
    words name. What is to be known of the boot is said on standard error."""
    program = runner.find_program(named, runner.LINUX if is_linux else runner.OWN)
    if not is_linux:
        try:
            return runner.run_for(name, program, names, given), []
        except runner.Failed as failure:
            raise explained(failure, names, given) from None
    parser = tool.Parser(prog=name, add_help=False, allow_abbrev=False)
    add_options(parser)
    add_log(parser)
    _, settings, rest = split_words(parser, given)
    program = os.path.abspath(program)
    with prepared(program, rest, settings) as boot:
        found = run_explained(program, names, boot.words)
        for said in lines_of(boot):
            tool.complain(name, said)
        return found, boot.claims
