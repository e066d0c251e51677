"""bootmem-live: machines on which the kernel agrees with the program, and every kind of difference."""

import os
import re
import shutil
import unittest

from kernels import folder_of, stand_in
from support import BOOTS, MIB, TOP, Case, example, has_file, last_line, text_of, tool, write
from bootmem_tools import inputs


HULL = b"""Node 0, zone      DMA
        spanned  4095
        present  3998
  start_pfn:           1
Node 0, zone    DMA32
        spanned  1044480
        present  520159
  start_pfn:           4096
Node 0, zone   Normal
        spanned  524288
        present  524288
  start_pfn:           1048576
Node 1, zone   Normal
        spanned  1048576
        present  1048576
  start_pfn:           1572864
"""


def live(place, *words):
    """Runs bootmem-live for an imitated machine."""
    return tool("bootmem-live", "--sys", os.path.join(place, "sys"), "--proc", os.path.join(place, "proc"), *words)


class Live(Case):
    """A running kernel against the program."""

    def edit(self, place, name, before, after):
        """Runs bootmem-live after a part of a file of /proc was replaced, and restores the file."""
        path = os.path.join(place, "proc", name)
        text = text_of(path)
        self.check(f"live: {before!r} is in {name}", text.count(before) >= 1, True)
        write(path, text.replace(before, after).encode())
        answer = live(place)
        write(path, text.encode())
        return answer

    def test_agrees(self):
        """Machines on which the kernel agrees with the program, and every kind of difference."""
        for name in ("q35-1g", "q35-2g-numa2", "zp-holes129", "pc-1g-memmapmix", "srat-slit"):
            status, out, err = live(stand_in(self.work, name))
            kinds = [line.split()[0] for line in out.splitlines()[1:-1] if not line.startswith("noted")]
            zones = text_of(example(name, "zones.txt")).count("\n")
            self.check(f"live {name}", (status, err, kinds), (0, "", ["agrees"] * (2 + zones)))
            self.check(f"live {name}: end", last_line(out),
                       f"{2 + zones} agree, 0 differ as docs/KERNEL.md says, 0 differ, 0 can't be compared")
        place = self.path("q35-1g")
        self.has("live: the image by iomem", live(place)[1], "bootmem-linux --cmdline cmdline --kernel 0x1000000,0x3400000 zp.bin\n")
        self.has("live: pages are assumed", live(place)[1], "noted    assumed: pages of the direct map up to 2 MiB; ")
        write(os.path.join(place, "proc/cpuinfo"), b"processor\t: 0\nflags\t\t: fpu pdpe1gb lm\n")
        status, out, _ = live(place)
        self.check("live: pages by cpuinfo", (status, out.splitlines()[0], "of the direct map" in out),
                   (0, "bootmem-linux --pages 1G --cmdline cmdline --kernel 0x1000000,0x3400000 zp.bin", False))
        os.remove(os.path.join(place, "proc/cpuinfo"))
        self.has("live --raw", live(place, "--raw")[1], "bootmem --cmdline cmdline --kernel 0x1000000,0x3400000 zp.bin\n")
        self.has("live --kernel", live(place, "--kernel", "0x2000000,0x3400000")[1], "--kernel 0x2000000,0x3400000 zp.bin\n")
        status, out, _ = self.edit(place, "iomem", "00100000-3ffdefff : System RAM", "00100000-3fedefff : System RAM")
        self.check("live: less RAM", (status, [line[:71] for line in out.splitlines() if line.startswith("differs")]),
                   (1, ["differs  iomem 0x000000003fedf000-0x000000003ffdefff (1 MiB): usable by"]))
        status, out, _ = self.edit(place, "iomem", "fed00000-fed003ff : HPET 0\n",
                              "240000000-24fffffff : System RAM\n250000000-27fffffff : System RAM\n")
        self.check("live: more RAM", status, 1)
        self.has("live: more RAM", out, "differs  iomem 0x0000000240000000-0x000000027fffffff (1 GiB): System RAM here, ")
        status, out, _ = self.edit(place, "iomem", "fed00000-fed003ff : HPET 0\n", "240000000-27fffffff : System RAM (kmem)\n")
        self.check("live: a driver's RAM", (status, "passed   iomem 0x0000000240000000-0x000000027fffffff" in out), (0, True))
        status, out, _ = self.edit(place, "zoneinfo", "present  258015", "present  258014")
        self.check("live: a zone with other frames", (status, "start 4096 spanned 258015 present 258014 here" in out), (1, True))
        status, out, _ = self.edit(place, "zoneinfo", "Movable\n  pages free     0\n        spanned  0\n        present  0\n",
                              "Movable\n  pages free     9\n        spanned  9\n        present  9\n")
        self.check("live: frames in Movable", (status, "node 0 Movable: start unknown spanned 9 present 9 here, no such zone" in out), (1, True))
        status, out, _ = self.edit(place, "zoneinfo", "Movable\n  pages free     0\n        spanned  0\n",
                              "Device\n  pages free     0\n        spanned  9\n")
        self.check("live: a zone without frames", (status, "passed   zoneinfo node 0 Device: start unknown spanned 9 present 0: it" in out),
                   (0, True))

    def test_hidden(self):
        """Hidden addresses, and missing files."""
        place = stand_in(self.work, "q35-1g")
        write(os.path.join(place, "proc/iomem"), re.sub(r"[0-9a-f]+-[0-9a-f]+ :", "00000000-00000000 :",
                                                        text_of(os.path.join(place, "proc/iomem"))).encode())
        status, out, _ = live(place)
        self.check("live: hidden addresses", (status, "passed   iomem: it isn't there, or its addresses are hidden; root sees" in out), (0, True))
        self.has("live: hidden addresses", out, "passed   kernel: the kernel's place isn't known, so 16 MiB to 48 MiB is assumed")
        os.remove(os.path.join(place, "proc/zoneinfo"))
        self.check("live: nothing to compare", live(place)[0], 2)
        os.remove(os.path.join(place, "sys/kernel/boot_params/data"))
        self.check("live: no zero page", live(place)[:2], (2, ""))

    def test_hull(self):
        """In the kernel a zone reaches up to its border if its node goes on past a hole. The program has the same zone."""
        name = "q35-8g-numa2"
        for part in ("sys/kernel/boot_params", "sys/firmware/acpi/tables", "proc"):
            os.makedirs(self.path(name, part))
        shutil.copy(example(name, "zp.bin"), self.path(name, "sys/kernel/boot_params/data"))
        shutil.copy(example(name, "cmdline"), self.path(name, "proc/cmdline"))
        shutil.copy(example(name, "srat.bin"), self.path(name, "sys/firmware/acpi/tables/SRAT"))
        write(self.path(name, "proc/zoneinfo"), HULL)
        status, out, _ = live(self.path(name))
        self.check("live: a node's hull", (status, last_line(out)),
                   (0, "4 agree, 0 differ as docs/KERNEL.md says, 0 differ, 2 can't be compared"))

    def test_folders(self):
        """The kept folder of every boot agrees. With --raw the area of the boot with UEFI differs, as a row of KERNEL.md says."""
        rows = text_of(os.path.join(TOP, "docs", "KERNEL.md"))
        for name in BOOTS:
            status, out, err = tool("bootmem-live", folder_of(self, name))
            kinds = [line.split()[0] for line in out.splitlines()[1:-1] if not line.startswith(("noted", "passed   zoneinfo"))]
            zones = text_of(example(name, "zones.txt")).count("\n") if has_file(name, "zones.txt") else 0
            self.check(f"live {name}", (status, err, sorted(kinds)), (0, "", ["agrees"] * (2 + zones)))
        out = tool("bootmem-live", "--raw", self.path("ovmf-4g-numa2"))[1]
        for found in re.findall(r"KERNEL\.md, row ([^:);]*)", out):
            self.check(f"live: row {found}", all(f"`{part}`" in rows for part in re.findall(r"\w+_\w+", found)), True)
        self.has("live --raw, 32 MiB lower", out,
                 "known    crash area: 0x0000000073000000-0x000000007affffff (128 MiB) here, 0x0000000075000000-0x000000007cffffff (128 MiB) "
                 "by bootmem: the kernel claims more before it: docs/KERNEL.md, row efi_init, efi_reserve_boot_services\n")

    def test_known(self):
        """A difference with a row in KERNEL.md is known, and the row exists: an image outside RAM with its zone, a domain of 1,024, and
        boot services' data that the kernel of a UEFI machine keeps."""
        rows = text_of(os.path.join(TOP, "docs", "KERNEL.md"))

        def found(folder, status, *more):
            """The lines that begin with known or differs. Their rows are looked up."""
            got, out, err = tool("bootmem-live", *more, folder)
            self.check(f"live: {folder}", (got, err), (status, ""))
            lines = [line for line in out.splitlines() if line.startswith(("known", "differs"))]
            for names in re.findall(r"KERNEL\.md, row ([^;:()\n]*)", "\n".join(lines)):
                self.check(f"row {names}", "\n| " + ", ".join(f"`{name}`" for name in names.split(", ")) in rows, True)
            return [re.sub(r": docs/KERNEL.*", "", line) for line in lines]

        folder = folder_of(self, "q35-1g")
        line, shown = text_of(os.path.join(folder, "cmdline")), text_of(os.path.join(folder, "iomem"))
        write(os.path.join(folder, "cmdline"), line.rstrip("\n") + " memmap=1M%16M-1+2\n")
        self.check("an image outside RAM", found(folder, 0), [])
        self.check("an image outside RAM, --raw", found(folder, 0, "--raw"),
                   ["known    iomem 0x0000000001000000-0x00000000010fffff (1 MiB): System RAM here, not usable by bootmem: the kernel makes its own "
                    "image usable again",
                    "known    zoneinfo node 0 DMA32: start 4096 spanned 258015 present 258015 here, start 4096 spanned 258015 present 257759 by "
                    "bootmem: the kernel makes its own image usable again"])
        write(os.path.join(folder, "cmdline"), line.rstrip("\n") + " memmap=1M%256M-1+2\n")
        self.check("the same elsewhere", [text[:7] for text in found(folder, 1)], ["differs"] * 2)
        write(os.path.join(folder, "cmdline"), line)
        write(os.path.join(folder, "srat.bin"), inputs.srat([(0, 512 * MIB, 0), (512 * MIB, 512 * MIB, 1024)]))
        self.check("a domain of 1,024", found(folder, 0), [])
        self.check("a domain of 1,024, --raw", found(folder, 0, "--raw"),
                   ["known    srat: the kernel drops an SRAT with a domain of 1,024 or more, so all memory "
                    "is of node 0"])
        write(os.path.join(folder, "srat.bin"), inputs.srat([(0, 512 * MIB, 0), (512 * MIB, 512 * MIB, 1023)]))
        self.check("a domain of 1,023", found(folder, 1)[0][:7], "differs")
        os.remove(os.path.join(folder, "srat.bin"))
        write(os.path.join(folder, "iomem"), shown.replace("00100000-3ffdefff : System RAM",
                                                          "00100000-3fdfffff : System RAM\n3fe04000-3ffdefff : System RAM"))
        write(os.path.join(folder, "efi.bin"), inputs.efi_map([(4, 0x3FE00000, 4, 1 << 63)]))
        self.check("kept by EFI", found(folder, 0), ["known    iomem 0x000000003fe00000-0x000000003fe03fff (16 KiB): usable by bootmem, no System "
                                                     "RAM here: boot services' data that the kernel keeps"])
        write(os.path.join(folder, "efi.bin"), inputs.efi_map([(4, 0x3FD00000, 0x110, 0)]))
        hole = text_of(os.path.join(folder, "iomem"))
        for kind, first, end, here in ((4, 0x3FD00000, 0x3FE10000, "known  "), (4, 0x3FE00000, 0x3FE04000, "known  "),
                                       (3, 0x3FD00000, 0x3FE10000, "differs"), (4, 0x3FD00000, 0x3FE03000, "differs")):
            write(os.path.join(folder, "efi.bin"), inputs.efi_map([(kind, first, (end - first) // 4096, 0)]))
            write(os.path.join(folder, "iomem"), hole.replace("3fe04000-3ffdefff", "3fe00000-3fe03fff : Reserved\n3fe04000-3ffdefff"))
            self.check(f"reserved by iomem, {kind} {first:#x}-{end:#x}", [text[:7] for text in found(folder, int(here == "differs"))], [here])
        write(os.path.join(folder, "iomem"), hole)
        write(os.path.join(folder, "efi.bin"), inputs.efi_map([(4, 0x3FD00000, 0x110, 0)]))
        self.check("no RAM by iomem, and not reserved", [text[:7] for text in found(folder, 1)], ["differs"])
        write(self.path("log"), b"[    0.000000] e820: update [mem 0x3fe00000-0x3fe03fff] usable ==> reserved\n")
        self.check("kept by EFI, by a log", [text[:7] for text in found(folder, 0, "--log", self.path("log"))], ["known  "])
        for descriptor in ((4, 0x3FE00000, 4, 0), (6, 0x3FE00000, 4, 1 << 63), (4, 0x3FE00000, 3, 1 << 63)):
            write(os.path.join(folder, "efi.bin"), inputs.efi_map([descriptor]))
            self.check(f"not kept: {descriptor}", [text[:7] for text in found(folder, 1)], ["differs"])

    def test_crash_areas(self):
        """Crash areas that differ, lines that the kernel reads differently, words that exclude a folder, and the files of --keep."""
        folder = folder_of(self, "q35-8g-numa2")
        shown = text_of(os.path.join(folder, "iomem"))
        for before, after, status, part in (
                ("000000006f000000-000000007effffff : Crash", "000000006d000000-000000007cffffff : Crash", 0, "known    crash area: "),
                ("000000006f000000-000000007effffff : Crash", "0000000070000000-000000007fffffff : Crash", 1, "differs  crash area: "),
                ("000000006f000000-000000007effffff : Crash", "000000006f000000-0000000076ffffff : Crash", 1, "differs  crash area: "),
                ("  000000006f000000-000000007effffff : Crash kernel\n", "", 1, "differs  crash area: none here, ")):
            self.check(f"live: {before!r} is there", before in shown, True)
            write(os.path.join(folder, "iomem"), shown.replace(before, after).encode())
            got, out, _ = tool("bootmem-live", folder)
            self.check(f"live: {after!r}", (got, part in out), (status, True))
        write(os.path.join(folder, "iomem"), shown.encode())
        line = text_of(os.path.join(folder, "cmdline")).replace("crashkernel=256M", "crashkernel=1G-8G:64M,8G-:256M mem=1TB")
        write(os.path.join(folder, "cmdline"), line.encode())
        status, out, _ = tool("bootmem-live", folder)
        self.check("live, the line", (status, out.splitlines()[0], "noted    changed: the line: word 9: mem=1TB: read as mem=1T\n" in out,
                                        "agrees   crash area: 0x000000006f000000-0x000000007effffff (256 MiB)\n" in out),
              (0, "bootmem-linux --cmdline cmdline --srat srat.bin --kernel 0x1000000,0x3400000 zp.bin", True, True))
        self.check("live --raw, the line", tool("bootmem-live", "--raw", folder)[:2], (2, ""))
        self.check("live, a folder and --keep", tool("bootmem-live", "--keep", folder, folder)[:2], (2, ""))
        self.check("live, no folder", tool("bootmem-live", self.path("nothing"))[:2], (2, ""))
        place = stand_in(self.work, "pc-128m")
        kept = self.path("kept")
        shown = tool("bootmem-live", "--sys", os.path.join(place, "sys"), "--proc", os.path.join(place, "proc"), "--keep", kept)
        self.check("live --keep", (shown[0], last_line(shown[1])[:8], sorted(os.listdir(kept))),
                   (0, "4 agree,", ["cmdline", "iomem", "kernel", "release", "zoneinfo", "zp.bin"]))
        self.check("live, what was kept", tool("bootmem-live", kept), shown)


if __name__ == "__main__":
    unittest.main()
