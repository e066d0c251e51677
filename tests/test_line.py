"""bootmem-line: the command lines of examples/, the size that a kernel picks from ranges, and each rule by which the kernel reads a line
differently from the program."""

import re
import unittest

from support import BOOTS, GIB, MIB, PROGRAM, Case, bytes_of, example, has_file, machine_of, program, rows_of, tool, write, zero_page


ADDED = "add_efi_memmap: EFI's descriptors are added to the map (do_add_efi_memmap): by bootmem those of --efi alone\n"

NOTED = "log_buf_len=1M: passed over: a longer log buffer is claimed before the crash area (setup_log_buf)\n"
AREA = "{}: passed over: {} claimed before the crash area ({})\n"
AREAS = (
    ("cma=64M", "an area is", "dma_contiguous_reserve"),
    ("hugetlb_cma=1G", "areas are", "hugetlb_cma_reserve"),
)

# Two lists of ranges as distributions have them. MACHINES has the sizes of virtual machines, each with the crash area that a kernel picks
# from either list.
FIRST, SECOND = "1G-4G:192M,4G-64G:256M,64G-:512M", "2G-4G:320M,4G-32G:512M,32G-64G:1G,64G-128G:2G,128G-:4G"

MACHINES = ((512 * MIB, None, None), (GIB, "192M", None), (2 * GIB, "192M", "320M"), (4 * GIB, "256M", "512M"),
            (8 * GIB, "256M", "512M"), (64 * GIB, "512M", "2G"), (128 * GIB, "512M", "4G"))

# A command line; the line that the tool prints for it on a machine of 4,095 MiB; and a part of its message. `=` is the unchanged line, for
# which the status is 0.
RULES = rows_of(r"""
quiet mem=768M memmap=64M!512M crashkernel=64M@16M | = |
quiet mem=4GB | quiet mem=4G | word 2: mem=4GB: read as mem=4G
mem=0 mem=08 mem |  | word 1: mem=0: left out: no size above 0
mem=16777216T mem=18446744073709551617M | mem=1M | word 2: mem=18446744073709551617M: read as mem=1M
memmap=64MG | memmap=64M | read as memmap=64M
memmap=64M\\$1G | memmap=64M | read as memmap=64M
memmap=1M@2Mx,foo,K@1G,exactmapx | memmap=1M@2M,0@1G,exactmap | word 1:\x20
memmap=1M%2M-1+2x memmap=@1M memmap |  | left out: no map option
memmap=1M%2M-0x100000001+2 memmap=1M%2M-1+3 | memmap=1M%2M-1+2 memmap=1M%2M-1+3 | word 1:\x20
memmap=2M%0xfffffffffff00000-1 | memmap=0xfffff%0xfffffffffff00000-1 | word 1:\x20
numa=offx numa=noacpi numa=fake=4 numa numa= | numa=off numa=off | numa=fake=4: left out: the kernel makes nodes
quiet mem="1G x | quiet mem=1G | quotation mark: it isn't closed
"mem=1G" mem="2G" "mem="3G"" | = |
a\xa0mem=1G | a mem=1G | byte 0xA0
crashkernel=auto quiet | quiet | left out: the kernel warns: memory value expected
crashkernel=256M crashkernel=64MB crashkernel=128M,high | crashkernel=128M,high | the kernel warns: unrecognized char: B
crashkernel=64M crashkernel=128M crashkernel=32M,high | = |
crashkernel=64M@16Mx | crashkernel=64M@16M | word 1:\x20
quiet -- crashkernel=64M mem=1G | quiet crashkernel=64M -- crashkernel=64M mem=1G | crashkernel=64M: put in:\x20
foo=crashkernel=64M,high | foo=crashkernel=64M,high crashkernel=64M,high | the raw line, from byte 5 on
"crashkernel=64M" x | x | the kernel warns: unrecognized char: "
crashkernel=64M\tx | x | the kernel warns: unrecognized char: \\x09
crashkernel=1G-:8G crashkernel=64M,high | crashkernel=64M,high | the kernel warns: invalid size
crashkernel=2G-1G:64M |  | the kernel warns: end <= start
crashkernel=1G-2G:64M,2G |  | the kernel warns: '-' expected
crashkernel=1G-2G:64M,2G-:96M,x@32M | crashkernel=96M@32M | word 1:\x20
crashkernel=64M,low crashkernel=1G,high | = |
crashkernel=1G,high crashkernel=x,low | crashkernel=1G,high | crashkernel=x,low: left out: the kernel warns: memory value
crashkernel=1G,high swiotlb=262144 | crashkernel=1G,high swiotlb=262144 crashkernel=520M,low | swiotlb= asks for
movable-node kernelcore=1G cma=1G hugetlb_cma=1G efi_fake_mem=1G@1G:1 acpi=off | = | word 6: acpi=off: passed over
add_efi_memmap=0 "add_efi_memmap" | = | word 1: add_efi_memmap=0: EFI's descriptors are added to the map
add-efi-memmap=1 add_efi-memmap | add_efi_memmap add_efi_memmap | word 1: add-efi-memmap=1: read as add_efi_memmap
crashkernal=64M crash_kernel=1 MEM=1G mem_map=1 numma=off | = | word 1: crashkernal=64M: passed over, by the kernel too: is crash
""") + [
    ("x" * 2040 + " mem=64M", "x" * 2040 + " mem=64", "byte 2048 and all after it: cut off"),
]


class Line(Case):
    """Command lines as the kernel reads them."""

    def test_boots(self):
        """The line of every boot of examples/ is printed unchanged."""
        for name in BOOTS:
            extension = ["--e820ext", "e820ext.bin"] if has_file(name, "e820ext.bin") else []
            status, out, err = tool("bootmem-line", *extension, "cmdline", "zp.bin", folder=example(name))
            line = bytes_of(example(name, "cmdline")).rstrip(b"\n")
            self.check(f"line {name}", (status, out.encode("latin-1").rstrip(b"\n")), (0, line))
            said = NOTED if b"log_buf_len=1M" in line else ""
            said += "".join(AREA.format(*area) for area in AREAS if f" {area[0]} ".encode() in line)
            said += ADDED if b"add_efi_memmap" in line else ""
            self.check(f"line {name}: said", re.sub(r"(?m)^bootmem-line: word \d+: ", "", err), said)

    def test_ranges(self):
        """The size that the kernel picks on seven machines, from total memory rounded up to a multiple of 128 MiB. The program then
        claims that size."""
        for size, *wanted in MACHINES:
            write(self.path("zp"), zero_page(machine_of(size)))
            for ranges, said in zip((FIRST, SECOND), wanted):
                status, out, err = tool("bootmem-line", "-", "zp", given=f"quiet crashkernel={ranges}\n", folder=self.work)
                write(self.path("line"), out.encode())
                area = re.match(r"crash at 0x(\w+)\.\.0x(\w+)", program(self.work, "--report", "crash", "--cmdline", "line", "zp"))
                found = int(area.group(2), 16) + 1 - int(area.group(1), 16) if area else 0
                number = int(said[:-1]) * (GIB if said[-1] == "G" else MIB) if said else 0
                self.check(f"ranges {size >> 20} MiB {ranges}", found, number)
                kept = out == f"quiet crashkernel={ranges}\n"
                self.check(f"ranges {size >> 20} MiB {ranges}: said", (status, kept or out), (0, True) if kept else
                           (1, f"quiet crashkernel={said}\n"))
                self.check(f"ranges {size >> 20} MiB {ranges}: why", "(parse_crashkernel_mem)" in err, not kept)
        # memblock_trim_memory drops a partial frame beside whole ones, but leaves it in the total: 512 MiB in whole frames and 3 KiB
        write(self.path("zp"), zero_page([(0, 0x9FC00, 1), (MIB, 512 * MIB - 0x9E000, 1)]))
        self.check("ranges, trimmed bytes", tool("bootmem-line", "-", "zp", given="crashkernel=600M-:64M", folder=self.work)[:2],
                   (1, "crashkernel=64M\n"))
        # mem= decides first
        self.check("ranges, mem=", tool("bootmem-line", "-", "zp", given="mem=256MB crashkernel=0-300M:32M,300M-:64M", folder=self.work)[:2],
                   (1, "mem=256M crashkernel=0-300M:32M,300M-:64M\n"))
        self.check("ranges, no machine", tool("bootmem-line", given="crashkernel=1G-:64M")[:2], (2, ""))

    def test_rules(self):
        """Each rule by which the kernel reads a line differently from the program. The program accepts every line that is printed."""
        page = self.path("zp")
        write(page, zero_page(machine_of(4 * GIB)))
        for line, printed, part in RULES:
            printed = None if printed == "=" else printed
            write(self.path("given"), line.encode("latin-1"))
            status, out, err = tool("bootmem-line", "--total", "4095M", "given", folder=self.work)
            self.check(f"line {line!r}", (status, out), (0, f"{line}\n") if printed is None else (1, f"{printed}\n"))
            self.has(f"line {line!r}", err, part)
            write(self.path("line"), out.encode())
            if "exactmap" not in out:
                said = tool(PROGRAM, "--report", "options", "--cmdline", "line", "zp", folder=self.work)[2]
                self.check(f"line {line!r}: taken", re.sub("bootmem: stopped: .*\n", "", said), "")
        for line in ("memmap=1M%2M-1+1", "memmap=2G@0xffffffffffffffff"):
            self.check(f"line {line}", tool("bootmem-line", given=line)[:2], (2, ""))
        self.check("line, no file", tool("bootmem-line", "nothing", folder=self.work)[:2], (2, ""))
        self.check("line, no size", tool("bootmem-line", "--total", "x", given="")[:2], (2, ""))


if __name__ == "__main__":
    unittest.main()
