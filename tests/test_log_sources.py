"""zp-from-log: the SRAT from a log, a folder with all inputs, and other sources than logs:
/sys/firmware/memmap, /proc/iomem and a sosreport."""

import os
import shutil
import unittest

from support import Case, bytes_of, entries_of, example, has_file, program, text_of, tool, words_of, write

# The lines that the kernels of these machines logged on their SRATs. nodes.txt of a machine has the
# nodes that the kernel made of it.
LOGGED = {
    "pc-6g-numa2-hole": """SRAT: PXM 0 -> APIC 0x00 -> Node 0
SRAT: PXM 1 -> APIC 0x01 -> Node 1
ACPI: SRAT: Node 0 PXM 0 [mem 0x00000000-0x0009ffff]
ACPI: SRAT: Node 0 PXM 0 [mem 0x00100000-0x7fffffff]
ACPI: SRAT: Node 1 PXM 1 [mem 0x80000000-0xbfffffff]
ACPI: SRAT: Node 1 PXM 1 [mem 0x100000000-0x1bfffffff]
NUMA: Node 0 [mem 0x00000000-0x0009ffff] + [mem 0x00100000-0x7fffffff] -> [mem 0x00000000-0x7fffffff]
NUMA: Node 1 [mem 0x80000000-0xbfffffff] + [mem 0x100000000-0x1bfffffff] -> [mem 0x80000000-0x1bfffffff]
""",
    "q35-20g-numa4": """ACPI: SRAT 0x000000007FFE23D2 000160 (v01 BOCHS  BXPC     00000001 BXPC 00000001)
SRAT: PXM 0 -> APIC 0x00 -> Node 0
SRAT: PXM 1 -> APIC 0x01 -> Node 1
SRAT: PXM 2 -> APIC 0x02 -> Node 2
SRAT: PXM 3 -> APIC 0x03 -> Node 3
ACPI: SRAT: Node 0 PXM 0 [mem 0x00000000-0x0009ffff]
ACPI: SRAT: Node 0 PXM 0 [mem 0x00100000-0x7fffffff]
ACPI: SRAT: Node 0 PXM 0 [mem 0x100000000-0x17fffffff]
ACPI: SRAT: Node 1 PXM 1 [mem 0x180000000-0x27fffffff]
ACPI: SRAT: Node 2 PXM 2 [mem 0x280000000-0x3ffffffff]
ACPI: SRAT: Node 3 PXM 3 [mem 0x400000000-0x57fffffff]
""",
    "srat-hull3": """ACPI: SRAT: Node 0 PXM 0 [mem 0x40000000-0x4fffffff]
ACPI: SRAT: Node 0 PXM 0 [mem 0x00000000-0x0fffffff]
ACPI: SRAT: Node 1 PXM 1 [mem 0x60000000-0xbfffffff]
ACPI: SRAT: Node 0 PXM 0 [mem 0x20000000-0x2fffffff]
ACPI: SRAT: Node 0 PXM 0 [mem 0x10000000-0x1fffffff]
ACPI: SRAT: Node 0 PXM 0 [mem 0x30000000-0x3fffffff]
ACPI: SRAT: Node 1 PXM 1 [mem 0x50000000-0x5fffffff]
ACPI: SRAT: Node 1 PXM 1 [mem 0x100000000-0x13fffffff]
""",
    "many1": """ACPI: SRAT: Node 0 PXM 2 [mem 0x00000000-0x14496fff]
ACPI: SRAT: Node 1 PXM 1 [mem 0x14497000-0x1e545fff]
ACPI: SRAT: Node 2 PXM 0 [mem 0x1e546000-0x1f44dfff]
ACPI: SRAT: Node 3 PXM 3 [mem 0x1f44e000-0x4f228fff]
ACPI: SRAT: Node 0 PXM 2 [mem 0x4f229000-0xb04a7fff]
ACPI: SRAT: Node 1 PXM 1 [mem 0xb04a8000-0xb2088fff]
ACPI: SRAT: Node 2 PXM 0 [mem 0xb2089000-0x10d3d9fff]
ACPI: SRAT: Node 3 PXM 3 [mem 0x10d3da000-0x125e29fff]
ACPI: SRAT: Node 0 PXM 2 [mem 0x125e2a000-0x12c019fff]
ACPI: SRAT: Node 1 PXM 1 [mem 0x12c01a000-0x13fffffff]
""",
    "srat-uncovered256": """ACPI: SRAT: Node 0 PXM 0 [mem 0x00000000-0x0009ffff]
ACPI: SRAT: Node 0 PXM 0 [mem 0x00100000-0x5fffffff]
ACPI: SRAT: Node 1 PXM 1 [mem 0x60100000-0xc00fffff]
ACPI: SRAT: Node 1 PXM 1 [mem 0x100000000-0x13fffffff]
NUMA: nodes only cover 4093MB of your 4094MB e820 RAM. Not used.
""",
}
MAP = """BIOS-provided physical RAM map:
BIOS-e820: [mem 0x0000000000000000-0x000000000009fbff] usable
BIOS-e820: [mem 0x0000000000100000-0x00000000bfffffff] usable
"""
# The entries of a table, from byte 48 on, and the log's lines on them: processors with an APIC ID of
# 254 and an x2APIC ID of 256, in domains 0x12345 and 7; memory that is hot-pluggable and
# non-volatile, that is empty, and that passes 2^64.
RARE = """SRAT: PXM 74565 -> APIC 0xfe -> Node 0
SRAT: PXM 7 -> APIC 0x0100 -> Node 1
SRAT: PXM 9 -> X2APIC 0x0200 ignored
ACPI: SRAT: Node 1 PXM 7 [mem 0x100000000-0x1ffffffff] hotplug
ACPI: SRAT: Node 0 PXM 74565 [mem 0x00000000-0x00000fff] hotplug non-volatile
ACPI: SRAT: Node 2 PXM 3 [mem 0x40000000-0x3fffffff]
ACPI: SRAT: Node 2 PXM 3 [mem 0xfffffffffffff000-0x00000fff]
"""
RARE_ENTRIES = bytes.fromhex(
    "0010 45fe 01000000 00 230100 00000000"
    "0218 0000 07000000 00010000 01000000 00000000 00000000"
    "0128 07000000 0000 0000000001000000 0000000001000000 00000000 03000000 0000000000000000"
    "0128 45230100 0000 0000000000000000 0010000000000000 00000000 07000000 0000000000000000"
    "0128 03000000 0000 0000004000000000 0000000000000000 00000000 01000000 0000000000000000"
    "0128 03000000 0000 00f0ffffffffffff 0000000000000000 00000000 01000000 0000000000000000")

# What a kernel shows of a machine of 3 GiB, and the zero page's entries for it.
IOMEM = """00000000-00000fff : Reserved
00001000-0009fbff : System RAM
0009fc00-000fffff : Reserved
  000f0000-000fffff : System ROM
00100000-bfffcfff : System RAM
  01000000-02276987 : Kernel code
  02400000-02e0afff : Kernel rodata
  03b36000-03c66fff : Kernel bss
bfffd000-bfffdfff : ACPI Tables
bfffe000-bfffefff : ACPI Non-volatile Storage
bffff000-bfffffff : RAM buffer
c0001000-eebfffff : PCI Bus 0000:00
  d0000000-dfffffff : PCI MMCONFIG 0000 [bus 00-ff]
    d0000000-dfffffff : Reserved
100000000-13fffffff : Persistent Memory
140000000-14fffffff : Soft Reserved
150000000-15fffffff : System RAM (kmem)
"""
IOMEM_ENTRIES = [(0, 0x1000, 2), (0x1000, 0x9EC00, 1), (0x9FC00, 0x60400, 2), (0x100000, 0xBFEFD000, 1), (0xBFFFD000, 0x1000, 3),
                 (0xBFFFE000, 0x1000, 4), (0xD0000000, 0x10000000, 2), (0x100000000, 0x40000000, 7), (0x140000000, 0x10000000, 0xEFFFFFFF)]
MEMMAP = [("0x0", "0x9fbff", "System RAM"), ("0x9fc00", "0xfffff", "Reserved"), ("0x100000", "0xbfffffff", "System RAM"),
          ("0xd0000000", "0xdfffffff", "Unusable memory"), ("0x100000000", "0x13fffffff", "Persistent Memory (legacy)")]
MEMMAP_ENTRIES = [(0, 0x9FC00, 1), (0x9FC00, 0x60400, 2), (0x100000, 0xBFF00000, 1), (0xD0000000, 0x10000000, 5),
                  (0x100000000, 0x40000000, 12)]


def stamped(text):
    """These lines, each with a time stamp."""
    return "".join(f"[    0.{number:06}] {line}\n" for number, line in enumerate(text.splitlines()))


class Sources(Case):
    """Inputs made from what a kernel logs or shows."""

    def memmap(self, folder, rows):
        """A folder like /sys/firmware/memmap with these rows."""
        for number, row in enumerate(rows):
            os.makedirs(os.path.join(folder, str(number)))
            for name, text in zip(("start", "end", "type"), row):
                write(os.path.join(folder, str(number), name), f"{text}\n")

    def made(self, *words, given=""):
        """The entries of the zero page that the tool makes; if it makes none, its message."""
        status, out, err = tool("zp-from-log", "--output", "zp", "--no-initrd", *words, given=given, folder=self.work)
        if status:
            return status, out, err
        page = bytes_of(self.path("zp"))
        return entries_of(page, page[0x1E8], 0x2D0)

    def test_srat(self):
        """The SRAT from a kernel's log gives the same nodes that the kernel made of the real table."""
        for name, lines in LOGGED.items():
            status, out, err = tool("zp-from-log", "--output", "zp", "--srat", "srat", "--no-initrd", given=stamped(MAP + lines), folder=self.work)
            self.check(f"{name}: status", (status, out, err), (0, "", ""))
            words = words_of(name)
            words[words.index("--srat") + 1] = self.path("srat")
            own = program(example(name), "--report", "nodes", *words_of(name))
            self.check(f"{name}: nodes", program(example(name), "--report", "nodes", *words), own)
            self.check(f"{name}: the kernel's nodes", text_of(example(name, "nodes.txt")) if has_file(name, "nodes.txt") else own, own)
        status, _, err = tool("zp-from-log", "--output", "zp", "--srat", "srat", "--no-initrd", given=stamped(MAP + RARE), folder=self.work)
        self.check("rare entries", (status, bytes_of(self.path("srat"))[48:], err),
                   (0, RARE_ENTRIES, "zp-from-log: x2APIC ids of 255 or more: bootmem-linux takes --x2apic for them\n"))
        self.check("rare entries: no block has memory", program(self.work, "--report", "nodes", "--srat", "srat", "zp").splitlines()[0],
                   "numa no blocks")

    def test_no_srat(self):
        """Logs that lack the SRAT or parts of it."""
        for lines, status, said in (
                (LOGGED["pc-6g-numa2-hole"] + "ACPI: SRAT: SRAT not used.\n", 0, "the kernel dropped its SRAT ('SRAT not used'), so none is made"),
                ("ACPI: SRAT 0x000000007FFE23D2 000160 (v01 BOCHS  BXPC     00000001 BXPC 00000001)\nNUMA turned off\n", 0,
                 "the log lists an SRAT, but none of its entries (NUMA turned off): no SRAT is made"),
                ("NODE_DATA(0) allocated [mem 0x1-0x2]\nInitmem setup node 3 [mem 0x1-0x2]\n", 0,
                 "the log has node 3, but no line of an SRAT: none is made, so all memory is on node 0"),
                ("ACPI: SRAT: Node 1 PXM 1 [mem 0x80000000-0xbfffffff]\n", 0, "line 4: domain 1 is node 1, and by the lines before it would be "
                 "node 0: the log lacks some of the SRAT's entries"),
                ("ACPI: SRAT: Node 0 PXM 0 [mem 0x80000\n", 1, "line 4: no whole entry of an SRAT: 'ACPI: SRAT: Node 0 PXM 0 [mem 0x80000'"),
                ("ACPI: SRAT: Node 0 PXM 4294967296 [mem 0x0-0xfff]\n", 1, "line 4: no domain has the number 4294967296")):
            got, _, err = tool("zp-from-log", "--output", "zp", "--no-initrd", given=MAP + lines, folder=self.work)
            self.check(lines.splitlines()[-1], (got, err), (status, f"zp-from-log: {said}\n"))
        got, out, err = tool("zp-from-log", "--output", "zp", "--no-initrd", given=f"{MAP}NODE_DATA(0) allocated [mem 0x1-0x2]\n", folder=self.work)
        self.check("one node", (got, out, err), (0, "", ""))
        got, out, err = tool("zp-from-log", "--output", "none", "--srat", "srat", "--no-initrd", given=MAP, folder=self.work)
        self.check("no line of an SRAT", (got, out, err[:46], os.path.exists(self.path("none"))),
                   (1, "", "zp-from-log: no line 'SRAT: Node 0 PXM 0 [mem ", False))

    def test_folder(self):
        """A folder with all inputs from a log gives the crash area and the map of that kernel."""
        os.makedirs(self.path("here"))
        write(self.path("here", "efi.bin"), b"of another boot")
        log = text_of(example("q35-8g-numa2", "log"))
        before = "[    0.000000] Linux version 5.10.0 (other)\n[    0.000000] Command line: mem=1G\n" + stamped(MAP)
        status, out, err = tool("zp-from-log", "--folder", "here", given=before + log, folder=self.work)
        self.check("folder", (status, out, err), (0, """zp.bin: zero page, 4096 bytes
cmdline: command line, 117 bytes
kernel: the place of its image, 0x1000000,0x3400000
release: the kernel's release, 6.1.0-57-amd64
next: cd here && bootmem --cmdline cmdline --kernel 0x1000000,0x3400000 zp.bin
""", "zp-from-log: the log has 2 boots: the last is taken\n"
                                                      "zp-from-log: the log has node 1, but no line of an SRAT: none is made, so all memory "
                                                      "is on node 0\n"))
        self.check("folder: its files", sorted(os.listdir(self.path("here"))), ["cmdline", "kernel", "release", "zp.bin"])
        self.check("folder: the line", text_of(self.path("here", "cmdline")), text_of(example("q35-8g-numa2", "cmdline")))
        shutil.copy(example("q35-8g-numa2", "srat.bin"), self.path("here"))
        self.check("folder: map and crash area", program(self.path("here"), "--report", "map,crash", "--cmdline", "cmdline", "--srat", "srat.bin",
                                                         "--kernel", "0x1000000,0x3400000", "zp.bin"),
                   f"== map\n{text_of(example('q35-8g-numa2', 'map.txt'))}== crash\n{text_of(example('q35-8g-numa2', 'crash.txt'))}")
        status, out, err = tool("zp-from-log", "--folder", "a b", "--kernel", "16M,32M", "--no-initrd",
                                given=f"Command line: {'x' * 960}\n{MAP}{LOGGED['srat-hull3']}", folder=self.work)
        self.check("folder: next", (status, out.splitlines()[-1], err),
                   (0, "next: cd 'a b' && bootmem --cmdline cmdline --srat srat.bin --kernel 16M,32M zp.bin",
                    "zp-from-log: the line 'Command line:' has 960 letters: the log may have cut it\n"))
        for line in ("efi: EFI v2.70 by EDK II", "memblock_reserve: [0x1000-0x1fff] efi_memblock_x86_reserve_range+0x1fc/0x22a"):
            status, _, err = tool("zp-from-log", "--folder", "there", "--kernel", "16M,32M", "--no-initrd", given=stamped(f"{MAP}{line}\n"),
                                  folder=self.work)
            self.check(f"folder: no descriptors, no line: {line}", (status, [said[:49] for said in err.splitlines()]),
                       (0, ["zp-from-log: the firmware is UEFI, and the log do", "zp-from-log: no line 'Command line:': it is taken"]))
        status, out, err = tool("zp-from-log", "--folder", "lost", given=stamped("Zone ranges:\n  DMA [mem 0x1000-0xffffff]\n"), folder=self.work)
        self.check("folder: a log without its start", (status, out, err),
                   (1, "", "zp-from-log: a log without lines 'BIOS-e820: [mem ..] type': if dmesg has lost the first lines of the boot, "
                    "journalctl -k -b or /var/log/dmesg may have them\n"))
        for words in (["--folder", "x", "--output", "y"], [], ["--folder", "x", "--srat", "y"], ["--output", "x", "--kernel", "1M,1M"],
                      ["--folder", "x", "--kernel", "1M"]):
            self.check(f"refused: {words}", tool("zp-from-log", *words, folder=self.work)[:2], (2, ""))
        for name in ("log", "zp.bin"):
            write(self.path(name), MAP)
        for words in (["--output", "log", "log"], ["--output", "zp", "--srat", "./log", "log"], ["--folder", ".", "zp.bin"]):
            status, out, err = tool("zp-from-log", *words, folder=self.work)
            self.check(f"refused: {words}", (status, out, err.endswith(": it is read, and would be written over\n")), (1, "", True))
        self.check("what was read stays", (text_of(self.path("log")), text_of(self.path("zp.bin"))), (MAP, MAP))

    def test_shown(self):
        """The files of a running kernel: /sys/firmware/memmap and /proc/iomem."""
        self.memmap(self.path("memmap"), MEMMAP)
        self.check("memmap", self.made("memmap"), MEMMAP_ENTRIES)
        self.check("iomem", self.made(given=IOMEM), IOMEM_ENTRIES)
        write(self.path("iomem"), IOMEM)
        status, out, err = tool("zp-from-log", "--folder", "here", "--no-initrd", "memmap", "iomem", folder=self.work)
        page = bytes_of(self.path("here", "zp.bin"))
        self.check("memmap, and the place of iomem", (status, err, entries_of(page, page[0x1E8], 0x2D0), text_of(self.path("here", "kernel")),
                   text_of(self.path("here", "iomem"))), (0, "", MEMMAP_ENTRIES, "0x1000000,0x2c67000\n", IOMEM))
        self.has("what it says", out, "kernel: the place of its image, 0x1000000,0x2c67000\n")
        self.check("iomem without root", self.made(given="00000000-00000000 : System RAM\n00000000-00000000 : Reserved\n"),
                   (1, "", "zp-from-log: the kernel hid the addresses of /proc/iomem: it shows them to root alone\n"))
        for row, said in ((("0x1000", "0xfff", "System RAM"), "a range that ends before it begins, or beyond 2^64 - 1"),
                          (("0x1000", "x", "System RAM"), "'x' is no number like 0x100000"), (("0x1000", "0x1fff", "Sand"), "'Sand' is no type")):
            shutil.rmtree(self.path("memmap"))
            self.memmap(self.path("memmap"), [row])
            status, out, err = self.made("memmap")
            self.check(f"memmap: {row}", (status, out, said in err), (1, "", True))

    def test_tree(self):
        """A sosreport, and a saved copy of /proc and /sys."""
        report = self.path("sosreport-host")
        for folder in ("sos_commands/kernel", "proc", "sys/firmware/acpi/tables"):
            os.makedirs(os.path.join(report, folder))
        shutil.copy(example("q35-8g-numa2", "log"), os.path.join(report, "sos_commands/kernel/dmesg"))
        shutil.copy(example("q35-8g-numa2", "cmdline"), os.path.join(report, "proc/cmdline"))
        shutil.copy(example("q35-8g-numa2", "srat.bin"), os.path.join(report, "sys/firmware/acpi/tables/SRAT"))
        write(os.path.join(report, "proc/zoneinfo"), "zones\n")
        write(os.path.join(report, "sos_commands/kernel/uname_-a"), "Linux host 6.1.0-57-amd64 #1 SMP x86_64 GNU/Linux\n")
        status, out, err = tool("zp-from-log", "--folder", "here", "sosreport-host", folder=self.work)
        self.check("sosreport", (status, out.splitlines()[-1], err, sorted(os.listdir(self.path("here")))),
                   (0, "next: cd here && bootmem --cmdline cmdline --srat srat.bin --kernel 0x1000000,0x3400000 zp.bin", "",
                    ["cmdline", "kernel", "release", "srat.bin", "zoneinfo", "zp.bin"]))
        same = [name for name in ("cmdline", "srat.bin") if bytes_of(self.path("here", name)) == bytes_of(example("q35-8g-numa2", name))]
        self.check("sosreport: copies", same, ["cmdline", "srat.bin"])
        # a dmesg that lacks its first lines: the map is that of memmap, and the image's place that of iomem
        write(os.path.join(report, "sos_commands/kernel/dmesg"), "[ 9999.0] usb 1-1: new device\n")
        write(os.path.join(report, "proc/iomem"), IOMEM)
        self.memmap(os.path.join(report, "sys/firmware/memmap"), MEMMAP)
        status, _, err = tool("zp-from-log", "--folder", "here", "--no-initrd", "sosreport-host", folder=self.work)
        page = bytes_of(self.path("here", "zp.bin"))
        self.check("without a log", (status, err, entries_of(page, page[0x1E8], 0x2D0), text_of(self.path("here", "kernel"))),
                   (0, "", MEMMAP_ENTRIES, "0x1000000,0x2c67000\n"))
        shutil.rmtree(os.path.join(report, "sys/firmware/memmap"))
        self.check("iomem alone", self.made("sosreport-host"), IOMEM_ENTRIES)
        write(os.path.join(report, "proc/iomem"), "00000000-00000000 : System RAM\n")
        status, out, err = self.made("sosreport-host")
        self.check("no map", (status, out, err.splitlines()[-1][:58]), (1, "", "zp-from-log: sosreport-host: no memory map in it: no sys/f"))


if __name__ == "__main__":
    unittest.main()
