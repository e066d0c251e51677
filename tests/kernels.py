"""Imitates what the kernels of examples/ show of their machines: the folders sys and proc, and folders as collect.sh keeps them."""

import os
import re
import shutil

from support import bytes_of, example, has_file, text_of, words_of, write

RESOURCES = {"usable": "System RAM", "reserved": "Reserved", "ACPI data": "ACPI Tables", "ACPI NVS": "ACPI Non-volatile Storage",
             "unusable": "Unusable memory", "persistent legacy": "Persistent Memory (legacy)", "soft reserved": "Soft Reserved",
             "persistent": "Persistent Memory", "other": "Unknown E820 type"}


def stand_in(work, name):
    """Writes folders sys and proc as the kernel of a machine shows them, from the map and the zones in its log."""
    for part in ("sys/kernel/boot_params", "sys/firmware/acpi/tables", "proc"):
        os.makedirs(os.path.join(work, name, part))
    shutil.copy(example(name, "zp.bin"), os.path.join(work, name, "sys/kernel/boot_params/data"))
    shutil.copy(example(name, "cmdline"), os.path.join(work, name, "proc/cmdline"))
    if has_file(name, "srat.bin"):
        shutil.copy(example(name, "srat.bin"), os.path.join(work, name, "sys/firmware/acpi/tables/SRAT"))
    if has_file(name, "e820ext.bin"):
        data = bytes_of(example(name, "e820ext.bin"))
        folder = os.path.join(work, name, "sys/kernel/boot_params/setup_data/0")
        os.makedirs(folder)
        write(os.path.join(folder, "data"), data[16:])
        write(os.path.join(folder, "type"), b"0x1\n")
    lines = []
    for line in text_of(example(name, "map.txt")).splitlines():
        match = re.fullmatch(r"0x(\w+)\.\.0x(\w+) \d+ (.*)", line)
        first, last = (int(part, 16) for part in match.groups()[:2])
        lines.append(f"{first:08x}-{last:08x} : {RESOURCES[match.group(3)]}\n")
        if first <= 0x1000000 <= last:
            lines += ["  01000000-022090c7 : Kernel code\n", "  03b34000-043fffff : Kernel bss\n"]
    lines.append("fed00000-fed003ff : HPET 0\n  fed00000-fed003ff : PNP0103:00\n")
    write(os.path.join(work, name, "proc/iomem"), ("".join(lines) + crash_lines(name)).encode())
    zones = []
    for line in text_of(example(name, "zones.txt")).splitlines():
        node, zone, start, end, present = re.match(r"Node (\d+), zone (\w+) start (\d+) end (\d+) present (\d+)", line).groups()
        zones.append(f"Node {node}, zone {zone:>8}\n  per-node stats\n      nr_mapped    30\n  pages free     38\n"
                     f"        spanned  {int(end) - int(start)}\n        present  {present}\n        managed  38\n"
                     f"  node_unreclaimable:  0\n  start_pfn:           {start}\n")
    zones.append("Node 0, zone  Movable\n  pages free     0\n        spanned  0\n        present  0\n")
    write(os.path.join(work, name, "proc/zoneinfo"), "".join(zones).encode())
    return os.path.join(work, name)


def crash_lines(name):
    """The lines of iomem for the crash area that the kernel of a machine took. There are none if its log doesn't have it."""
    if not has_file(name, "crash.txt"):
        return ""
    found = re.findall(r"0x0*([0-9a-f]+)\.\.0x0*([0-9a-f]+)", text_of(example(name, "crash.txt")))
    return "".join(f"  {first}-{last} : Crash kernel\n" for first, last in found)


def folder_of(case, name):
    """Writes a folder as collect.sh keeps it for a boot: the inputs, the kernel's place, and what the kernel shows, as far as its log
    has it. The crash area of a boot with UEFI is the one that memblock returned to the kernel's own search."""
    folder = case.path(name)
    if has_file(name, "zones.txt"):
        place = stand_in(case.path("kernels"), name)
        os.mkdir(folder)
        for file in ("iomem", "zoneinfo"):
            shutil.copy(os.path.join(place, "proc", file), folder)
    else:
        zones = example(name, "zones.txt")
        os.mkdir(folder)
        lines = [re.fullmatch(r"0x(\w+)\.\.0x(\w+) (\d+) .*", line).groups() for line in text_of(example(name, "map.txt")).splitlines()]
        write(os.path.join(folder, "iomem"), "".join(f"{first}-{last} : {'System RAM' if kind == '1' else 'Reserved'}\n"
                                                     for first, last, kind in lines).encode() + taken_by(name).encode())
        case.check(f"{name}: no zones", os.path.exists(zones), False)
    for file in ("zp.bin", "cmdline", "e820ext.bin", "srat.bin", "slit.bin", "efi.bin"):
        if has_file(name, file):
            shutil.copy(example(name, file), folder)
    if has_file(name, "linux"):  # words that bootmem-linux needs: --pages and its value
        write(os.path.join(folder, "pages"), text_of(example(name, "linux")).split()[1] + "\n")
    write(os.path.join(folder, "kernel"), (words_of(name)[words_of(name).index("--kernel") + 1] + "\n").encode())
    return folder


def taken_by(name):
    """The lines of iomem for the crash area of a boot."""
    if has_file(name, "crash.txt"):
        found = re.findall(r"0x(\w+)\.\.0x(\w+)", text_of(example(name, "crash.txt")))
    elif "crashkernel=" in text_of(example(name, "cmdline")):
        searches = [re.match(r"alloc \d+ (\d+) 16777216 ", line) for line in text_of(example(name, "replay/script")).splitlines()]
        sizes = {number: int(match.group(1)) for number, match in enumerate(searches, 1) if match}
        places = re.findall(r"^(\d+): at 0x(\w+)", text_of(example(name, "replay/script.txt")), re.MULTILINE)
        found = [(start, f"{int(start, 16) + sizes[int(line)] - 1:08x}") for line, start in places if int(line) in sizes]
    else:
        found = []
    return "".join(f"  {first}-{last} : Crash kernel\n" for first, last in found)
