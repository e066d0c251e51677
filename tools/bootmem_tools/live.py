"""bootmem-live: compares what bootmem says about memory with what the kernel that runs here shows."""

from __future__ import annotations

import argparse
import collections
import os
import re
import shutil
import subprocess
import sys
import tempfile
from typing import Iterable, Iterator, NamedTuple, NoReturn, Sequence

from bootmem_tools import (
    as_linux, linux_claims, machine, next_step, notes, ranges, reports, runner, tool
)
from bootmem_tools.grammar import read_lines

NAME = "bootmem-live"
USAGE = """bootmem-live [--kernel BASE,SIZE] [OPTIONS] [--program P] FOLDER
       bootmem-live [--kernel BASE,SIZE] [OPTIONS] [--program P]
                    [--keep FOLDER] [--sys DIR] [--proc DIR]

OPTIONS: [--pages 4K|2M|1G] [--brk BYTES] [--x2apic] [--cma] [--log FILE]
         [--raw]"""
ABOUT = """Compares what bootmem says of a machine with what its kernel shows: the map's usable ranges with the System RAM of
/proc/iomem, the crash area with its Crash kernel, and start, spanned and present frames of each zone with
/proc/zoneinfo. Each difference is one line, with what may explain it."""
EPILOG = f"""The machine is the one that this runs on, or that of FOLDER, as bootmem-collect (collect.sh) gathered it. Root sees
more: the addresses of /proc/iomem are 0 for others, and they can't read ACPI's SRAT. The place of the kernel's
image is taken from /proc/iomem, or from FOLDER, unless --kernel gives it. The collected files are removed at the end,
or kept by --keep, with all that they are compared with.

The inputs are read as Linux 6.1 reads them, and what that kernel claims before its crash area is claimed, as
bootmem-linux does; pages of the direct map are 1 GiB large if the processor has them. With --raw the program
reads the inputs itself. A zone is compared by the kernel's own rule: the hull of its node's memory, cut by the zone's
borders.

A line begins with
  noted    what was changed as Linux reads it, or assumed, or can't be known
  panics   why Linux 6.1 is known to panic on this boot
  agrees   the kernel has what bootmem says
  known    it differs as a row of docs/KERNEL.md says, which is named
  differs  it differs in another way
  passed   it can't be compared, and why

{runner.FINDING_RAW}

exit status: 0 if nothing differs except in a known way, 1 if something does, 2 if nothing could be compared, and
for words that aren't those above.

examples:
  bootmem-live
  bootmem-live --keep here
  bootmem-live here"""

# The first frame of each zone and the one after its last (zone_sizes_init).
BORDERS = {"DMA": (0, 4096), "DMA32": (4096, 1 << 20), "Normal": (1 << 20, 1 << 52)}
GIVEN = "the boot loader's command line isn't /proc/cmdline (built-in words, bootconfig)"
HOTPLUG = "hotplug, or nodes that bootmem wasn't told of (an SRAT that root alone reads, numa=fake)"


class Zone(NamedTuple):
    """A zone of /proc/zoneinfo or of the report, in frames; None if the kernel shows no number."""

    start: int | None
    spanned: int
    present: int


class Finding(NamedTuple):
    """A line of the answer: its first word, and its text."""

    kind: str
    text: str


COMPARED = ["map", "zones", "nodes", "crash"]
DOMAINS = 1024  # MAX_NUMNODES: with a domain number of this or more, the kernel drops the SRAT
BOOT_DATA, RUNTIME = 4, 1 << 63  # EFI_BOOT_SERVICES_DATA, EFI_MEMORY_RUNTIME

# Zones by node and name.
Zones = dict[tuple[int, str], Zone]
Texts = reports.Texts


def row(*functions: str) -> str:
    """Returns the name of the row of KERNEL.md's table that begins with these functions."""
    return "docs/KERNEL.md, row " + ", ".join(functions)


def read_words(words: list[str]) -> argparse.Namespace:
    """Returns the tool's words."""
    parser = tool.new_parser(NAME, USAGE, ABOUT, EPILOG)
    parser.add_argument("folder", metavar="FOLDER", nargs="?", help="what bootmem-collect gathered of a machine")
    parser.add_argument("--kernel", metavar="BASE,SIZE", help="where the kernel's image lies, as bootmem reads it")
    parser.add_argument("--keep", metavar="FOLDER", help="gather into FOLDER and leave it there")
    parser.add_argument("--sys", metavar="DIR", help="a folder in place of /sys")
    parser.add_argument("--proc", metavar="DIR", help="a folder in place of /proc")
    as_linux.add_raw(parser)
    as_linux.add_log(parser)
    runner.add_program(parser)
    given = parser.parse_args(words)
    given.settings = as_linux.settings_of(given, parser)
    if given.folder and (given.keep or given.sys or given.proc):
        parser.error("a FOLDER is gathered already: --keep, --sys and --proc don't stand beside it")
    return given


def collect(given: argparse.Namespace, folder: str) -> None:
    """Collects the machine's inputs in the folder, with the script next to this tool, or else with
    the one on the PATH."""
    folders = [os.path.dirname(os.path.realpath(sys.argv[0])), os.path.dirname(os.path.dirname(os.path.realpath(__file__)))]
    scripts = [os.path.join(beside, name) for beside in folders for name in ("collect.sh", "bootmem-collect")]
    script = next((path for path in scripts if os.path.isfile(path)), None) or shutil.which("bootmem-collect")
    if script is None:
        raise tool.Trouble(f"there is no collect.sh and no bootmem-collect in {folders[0]}, and none on the PATH")
    done = subprocess.run(["sh", script, "--sys", given.sys or "/sys", "--proc", given.proc or "/proc", folder],
                          stdin=subprocess.DEVNULL, stdout=subprocess.PIPE, stderr=subprocess.PIPE, check=False)
    if done.returncode != 0:
        for line in done.stderr.decode("utf-8", "replace").splitlines()[:-1]:
            tool.complain(NAME, line)
        raise tool.Trouble("this machine's inputs couldn't be gathered" + "".join(
            f": {line}" for line in done.stderr.decode("utf-8", "replace").splitlines()[-1:]))


def read_zoneinfo(text: str) -> Zones:
    """Returns the zones of /proc/zoneinfo that have frames, by node and name. The start is None if it
    isn't shown."""
    found = {}
    for part in re.split(r"^(?=Node \d+, zone)", text, flags=re.MULTILINE):
        head = re.match(r"Node (\d+), zone +(\S+)", part)
        if head is None:
            continue
        start, spanned, present = (number_in(form, part) for form in ("start_pfn:", "spanned", "present"))
        if spanned:
            found[int(head.group(1)), head.group(2)] = Zone(start, spanned, present or 0)
    return found


def number_in(name: str, part: str) -> int | None:
    """Returns the number of a line with this name, or None if there is none."""
    match = re.search(rf"^\s*{name} +(\d{{1,20}})$", part, re.MULTILINE)
    return int(match.group(1)) if match else None


class Shown(NamedTuple):
    """Ranges that explain a difference in RAM: the kernel's image, and the data of EFI's boot services
    that the kernel keeps."""

    image: ranges.Range | None
    kept: list[ranges.Range]


def kept_data(folder: str, reserved: Sequence[ranges.Range] = ()) -> list[ranges.Range]:
    """Returns the data of boot services that the kernel keeps, from the folder's EFI memory map. It
    has the attribute of runtime services there (efi_arch_mem_reserve). A map that the kernel listed
    before that (efi=debug) lacks the attribute. Then it is what became `reserved`, by a log or by
    /proc/iomem, inside one descriptor of such data."""
    path = os.path.join(folder, "efi.bin")
    if not os.path.isfile(path):
        return []
    with open(path, "rb") as file:
        descriptors = linux_claims.read_descriptors(file.read(1 << 20))
    data = [one for one in descriptors if one.kind == BOOT_DATA and one.first < one.end]
    found = [(one.first, one.end - 1) for one in data if one.attributes & RUNTIME]
    return found + [(first, last) for first, last in reserved
                    if any(one.first <= first and last < one.end for one in data)]


def ram_finding(first: int, last: int, here: bool, shown: Shown) -> Finding:
    """Returns the finding for a range that is RAM on only one side. If `here`, it is System RAM of
    the kernel."""
    where = f"iomem {ranges.range_text(first, last)} ({ranges.size_text(last + 1 - first)}): "
    if not here and not ranges_outside(first, last, shown.kept):
        return Finding("known", f"{where}usable by bootmem, no System RAM here: boot services' data that the kernel keeps: "
                                + row("efi_mem_reserve", "efi_arch_mem_reserve"))
    if not here:
        return Finding("differs", f"{where}usable by bootmem, no System RAM here: taken back later (see 'e820: update' and "
                                  "'e820: remove' in the log; " + row("early_gart_iommu_check", "mtrr_trim_uncached_memory")
                                  + "; of UEFI, row efi_mem_reserve, efi_arch_mem_reserve"
                                  + f"), removed, or {GIVEN}")
    if shown.image and shown.image[0] <= first and last <= shown.image[1]:
        return Finding("known", f"{where}System RAM here, not usable by bootmem: the kernel makes its own image usable again: "
                                + row("e820_add_kernel_range"))
    return Finding("differs", f"{where}System RAM here, not usable by bootmem: added after boot (hotplug), by add_efi_memmap ("
                              + row("efi_memblock_x86_reserve_range", "do_add_efi_memmap") + f"), or {GIVEN}")


def ranges_outside(first: int, last: int, others: Iterable[ranges.Range]) -> list[ranges.Range]:
    """Returns the parts of a range that lie in none of the others."""
    rest = [(first, last)]
    for one in others:
        rest = ranges.without(rest, *one)
    return rest


def image_of(resources: Iterable[machine.Resource]) -> ranges.Range | None:
    """Returns the first and the last byte of the kernel's image from /proc/iomem, or None."""
    code = [one for one in resources if one.name.startswith("Kernel ")]
    return (min(one.first for one in code), max(one.last for one in code)) if code else None


def compare_ram(resources: Sequence[machine.Resource], entries: Iterable[reports.Span],
                kept: list[ranges.Range]) -> Iterator[Finding]:
    """Yields the findings for System RAM."""
    ram = [one for one in resources if one.name == "System RAM"]
    for one in resources:
        if one.name.startswith("System RAM ("):
            yield Finding("passed", f"iomem {ranges.range_text(one.first, one.last)}: {one.name}, added after boot by a driver")
    shown = Shown(image_of(resources), kept)
    usable = [entry for entry in entries if entry.name in ("usable", "usable kernel")]
    agreed = 0
    run: tuple[int, int, bool] | None = None
    both: list[Sequence[ranges.Ranged]] = [ram, usable]
    for first, last, (here, told) in ranges.sweep(*both):
        if bool(here) == bool(told):
            agreed += last + 1 - first if here else 0
            continue
        if run and run[1] + 1 == first and run[2] == bool(here):
            first = run[0]
        elif run:
            yield ram_finding(*run, shown)
        run = (first, last, bool(here))
    if run:
        yield ram_finding(*run, shown)
    if agreed:
        yield Finding("agrees", f"iomem: {ranges.size_text(agreed)} of System RAM are usable by bootmem")


def area_text(found: Iterable[ranges.Range]) -> str:
    """Returns the crash area and its low part."""
    return " and ".join(f"{ranges.range_text(first, last)} ({ranges.size_text(last + 1 - first)})" for first, last in found) or "none"


def compare_crash(resources: Iterable[machine.Resource], lines: Sequence[str], uefi: bool) -> Finding:
    """Returns the finding for the crash area."""
    here = sorted((one.first, one.last) for one in resources if one.name == "Crash kernel")
    told = reports.crash_ranges(lines)
    if here == told:
        return Finding("agrees", f"crash area: {area_text(here)}" + ("" if told or "crash none" in lines else f", and {lines[0]}"))
    where = f"crash area: {area_text(here)} here, {area_text(told)} by bootmem: "
    before = row("efi_init", "efi_reserve_boot_services") if uefi else row("init_mem_mapping", "setup_log_buf") + " and those after it"
    lower = [own[0] <= other[0] and own[1] - own[0] == other[1] - other[0] for own, other in zip(here, told)]
    if len(here) == len(told) and all(lower):
        return Finding("known", f"{where}the kernel claims more before it: {before}")
    if uefi and told and not here:
        return Finding("known", f"{where}what the kernel claims before it may have left no place: {before}")
    return Finding("differs", f"{where}given back (/sys/kernel/kexec_crash_size), a kernel other than 6.1, more claimed before it "
                              f"({before}), or {GIVEN}")


def told_zones(spans: Iterable[reports.Span]) -> Zones:
    """Returns the report's zones by node and name, with the span of the kernel's rule: the node's
    hull, cut at the zone's borders (zone_spanned_pages_in_node). Present frames don't change."""
    own = {(int(one.fields["node"]), one.fields["zone"]): {key: int(one.fields[key]) for key in ("start_frame", "end_frame", "present")}
           for one in spans}
    found = {}
    for node in {node for node, _ in own}:
        hull = [zone for (number, _), zone in own.items() if number == node]
        for name, (low, high) in BORDERS.items():
            start, end = max(low, min(zone["start_frame"] for zone in hull)), min(high, max(zone["end_frame"] for zone in hull))
            if start < end:
                found[node, name] = Zone(start, end - start, own.get((node, name), {"present": 0})["present"])
    return found


def zone_text(zone: Zone) -> str:
    """Returns start, spanned and present frames of a zone."""
    return f"start {'unknown' if zone.start is None else zone.start} spanned {zone.spanned} present {zone.present}"


def why_untold(name: str) -> str:
    """Returns what may explain a zone of the kernel that bootmem doesn't have."""
    return {"Movable": "kernelcore=, movablecore=, movable_node or hotplug", "Device": "memory of a driver"}.get(name, HOTPLUG)


def why_other(node: int, name: str, here: Zone, told: Zones) -> str:
    """Returns what may explain a zone of the kernel that differs from bootmem's."""
    zone, below = told[node, name], told.get((node, "DMA"))
    if name == "DMA32" and below and here.present == zone.present + below.present:
        return "a kernel without the zone DMA (CONFIG_ZONE_DMA)"
    if here.present < zone.present:
        return "frames were taken back, went offline or to zone Movable"
    if here.present > zone.present:
        return HOTPLUG
    return f"the node's hull is another: {HOTPLUG}"


def with_image(name: str, zone: Zone, made: Iterable[ranges.Range]) -> Zone | None:
    """Returns a zone with the frames `made` of the image, which the kernel makes usable, or None if none of them is in the zone."""
    low, high = BORDERS[name]
    parts = [(max(low, first // ranges.FRAME), min(high, (last + 1) // ranges.FRAME)) for first, last in made]
    parts = [(first, end) for first, end in parts if first < end]
    if not parts or zone.start is None:
        return None
    start = min(zone.start, *(first for first, _ in parts))
    end = max(zone.start + zone.spanned, *(end for _, end in parts))
    return Zone(start, end - start, zone.present + sum(end - first for first, end in parts))


def zone_finding(node: int, name: str, here: Zone, told: Zones, made: Sequence[ranges.Range] = ()) -> Finding:
    """Returns the finding for a zone that the kernel shows, by the zones of bootmem. `made` are the parts of the kernel's image that
    aren't RAM in the map."""
    where = f"zoneinfo node {node} {name}: {zone_text(here)}"
    zone = told.get((node, name))
    if zone is None:
        if here.present == 0:
            return Finding("passed", f"{where}: it has no frame")
        return Finding("differs", f"{where} here, no such zone by bootmem: {why_untold(name)}")
    if here.start is None:
        zone = zone._replace(start=None)
    if here == zone:
        return Finding("agrees", where)
    if here == with_image(name, zone, made):
        return Finding("known", f"{where} here, {zone_text(zone)} by bootmem: the kernel makes its own image usable again: "
                                + row("e820_add_kernel_range"))
    return Finding("differs", f"{where} here, {zone_text(zone)} by bootmem: {why_other(node, name, here, told)}")


def compare_zones(shown: Zones, told: Zones, made: Sequence[ranges.Range] = ()) -> Iterator[Finding]:
    """Yields the findings for the zones that the kernel shows, and for those that only bootmem has."""
    for node, name in sorted(shown):
        yield zone_finding(node, name, shown[node, name], told, made)
    for node, name in sorted(set(told) - set(shown)):
        zone = told[node, name]
        if zone.present:
            yield Finding("differs", f"zoneinfo node {node} {name}: none here, {zone_text(zone)} by bootmem: a kernel without this "
                                     "zone, memory offline, or fewer nodes here")


class Told(NamedTuple):
    """What bootmem says about a machine: the command that was run, its words with the names in the folder, the reports, and the
    notes."""

    command: str
    words: list[str]
    texts: Texts
    notes: list[str]


def folder_words(given: argparse.Namespace, folder: str) -> list[str]:
    """Returns the program's words for the inputs in the folder, by their names there."""
    kernel = given.kernel or machine.kernel_in(folder)
    line = ["--cmdline", "cmdline"] if os.path.exists(os.path.join(folder, "cmdline")) else []
    return line + machine.files_in(folder) + (["--kernel", kernel] if kernel else []) + ["zp.bin"]


def settings_for(given: argparse.Namespace, folder: str) -> tuple[as_linux.Settings, list[str]]:
    """Returns the settings that the words and the folder give and no input has, and the words for
    them."""
    settings: as_linux.Settings = given.settings
    pages = (machine.text_in(folder, "pages") or "").strip()
    if settings.pages is None and pages in as_linux.PAGES:
        settings = settings._replace(pages=pages)
    return settings, ["--pages", settings.pages] if settings.pages else []


def told_by_linux(given: argparse.Namespace, folder: str) -> Told:
    """Returns what bootmem61 says about the machine in the folder for a boot as Linux 6.1 makes it."""
    words = folder_words(given, folder)
    settings, more = settings_for(given, folder)
    slit = ["--slit", "slit.bin"] if os.path.exists(os.path.join(folder, "slit.bin")) else []
    with as_linux.prepared(given.program, slit + words, settings, folder) as prepared:
        texts = runner.run_program(given.program, COMPARED, prepared.words, folder)
        noted = [said for said in (prepared.place, *prepared.said) if said]
    return Told(" ".join([as_linux.LINUX, *more, *slit, *words]), words, texts, noted)


def told_by_program(given: argparse.Namespace, folder: str, with_srat: bool = True) -> Told:
    """Returns what the program says about the inputs in the folder by its own reading."""
    words = folder_words(given, folder)
    if not with_srat:
        del words[words.index("--srat"):words.index("--srat") + 2]
    texts = runner.run_program(given.program, COMPARED, words, folder)
    return Told(f"bootmem {' '.join(words)}", words, texts, [])


def srat_note_in(folder: str, words: Sequence[str], texts: Texts) -> str | None:
    """Returns the note on the folder's SRAT, or None."""
    name = notes.value_in(words, "--srat")
    return notes.srat_note(os.path.join(folder, name), texts) if name else None


def compare(given: argparse.Namespace, folder: str, words: Sequence[str], texts: Texts) -> Iterator[Finding]:
    """Yields all findings on the folder's machine."""
    for why in machine.panics(texts):
        yield Finding("panics", why)
    if "--kernel" not in words:
        yield Finding("passed", f"kernel: {runner.ASSUMED}")
    for note in (notes.place_note(notes.value_in(words, "--kernel"), texts), srat_note_in(folder, words, texts)):
        if note:
            yield Finding("noted", note)
    srat = os.path.join(given.sys or "/sys", "firmware", "acpi", "tables", "SRAT")
    if not given.folder and "--srat" not in words and os.path.exists(srat):
        yield Finding("passed", "srat: this machine has an SRAT that root alone can read; bootmem takes all memory for node 0")
    if given.folder and "--srat" not in words and machine.lacks_srat(folder):
        yield Finding("passed", machine.NO_SRAT)
    iomem, zoneinfo = machine.text_in(folder, "iomem"), machine.text_in(folder, "zoneinfo")
    made: list[ranges.Range] = []
    if iomem is None:
        yield Finding("passed", "iomem: it isn't there, or its addresses are hidden; root sees them")
    else:
        resources = machine.read_iomem(iomem)
        image = image_of(resources)
        usable = [(entry.first, entry.last) for entry in reports.spans("map", texts["map"]) if entry.fields["type"] in reports.MEMORY]
        made = ranges_outside(*image, usable) if image else []
        reserved = [(first, end - 1) for first, end in given.settings.told.reserved]
        reserved += [(one.first, one.last) for one in resources if one.name == "Reserved"]
        yield from compare_ram(resources, reports.spans("map", texts["map"]), kept_data(folder, reserved))
        yield compare_crash(resources, texts["crash"], machine.is_uefi(os.path.join(folder, "zp.bin")))
    if zoneinfo is None:
        yield Finding("passed", "zoneinfo: it isn't there")
    else:
        yield from compare_zones(read_zoneinfo(zoneinfo), told_zones(reports.spans("zones", texts["zones"])), made)


def drops_srat(texts: Texts) -> bool:
    """Returns whether the program uses an SRAT that the kernel drops because of a domain's number (acpi_numa_memory_affinity_init)."""
    lines = list(read_lines("nodes", texts["nodes"]))
    used = any(line.kind == "numa" and line.fields["name"] == "used" for line in lines)
    return used and any(line.kind == "domain" and int(line.fields["domain"]) >= DOMAINS for line in lines)


def print_findings(given: argparse.Namespace, folder: str) -> collections.Counter[str]:
    """Prints the command and the findings for a folder. Returns how many findings of each kind there are."""
    next_step.refuse_pageless(NAME, folder)
    told = told_by_program(given, folder) if given.raw else told_by_linux(given, folder)
    findings = [Finding("noted", said) for said in told.notes]
    if given.raw and drops_srat(told.texts):
        findings.append(Finding("known", f"srat: the kernel drops an SRAT with a domain of {DOMAINS:,} or more, so all memory is of node 0: "
                                         + row("x86_acpi_numa_init", "numa_init") + "; compared without it"))
        told = told_by_program(given, folder, with_srat=False)
    findings += compare(given, folder, told.words, told.texts)
    print(told.command)
    counts: collections.Counter[str] = collections.Counter()
    for finding in findings:
        counts[finding.kind] += 1
        print(f"{finding.kind:<8} {finding.text}")
    if any(one.kind == "passed" and one.text.startswith("srat: ") for one in findings):
        sys.stdout.flush()
        tool.say_next(next_step.for_srat(folder) if given.folder else f"sudo {NAME}")
    return counts


def main(words: list[str]) -> int:
    """Prints the findings and their numbers. Returns 1 if the kernel differs in a way that isn't
    known, else 0."""
    given = read_words(words)
    name = runner.OWN if given.raw else runner.LINUX
    given.program = os.path.abspath(runner.find_program(given.program, name))
    as_linux.refuse_itself(given.program)
    with tempfile.TemporaryDirectory() as temporary:
        folder = given.folder or given.keep or temporary
        if not given.folder:
            collect(given, folder)
        counts = print_findings(given, folder)
    print(f"{counts['agrees']} agree, {counts['known']} differ as docs/KERNEL.md says, {counts['differs']} differ, "
          f"{counts['passed']} can't be compared")
    if counts["agrees"] + counts["known"] + counts["differs"] == 0:
        raise tool.Trouble("nothing could be compared")
    return 1 if counts["differs"] else 0


def command() -> NoReturn:
    """Runs the tool as a command."""
    tool.run_tool(NAME, main, failure=2)


if __name__ == "__main__":
    command()
