"""bootmem-linux and the map: EFI's descriptors that Linux drops, the image, which becomes RAM after
EFI's map has been added, and nodes of setup_data."""

import os
import re
import struct
import unittest

from support import (
    GIB, LOW, MIB, PROGRAM61, RAM, RESERVED, Case, entries_of, extension, machine_of, program, ran,
    tool, write
)
from test_linux import claims_by_rule
from bootmem_tools import as_linux, inputs, linux_claims, linux_log, linux_map

TOP = 1 << 64
SERVICES = (4, 0x3E400000, 256, 15)  # boot services
RULE = "efi_memmap_entry_valid"
IMAGE = ["--kernel", "16M,17M"]  # brk has 192 KiB of room after it, up to 0x2130000
BAD = [LOW, (MIB, 31 * MIB, RAM), (32 * MIB, 2 * MIB, RESERVED), (34 * MIB, 200 * MIB, RAM)]


class Map(Case):
    """The map as the kernel makes it."""

    def linux(self, *words):
        """Runs the tool in the test's folder. Returns status, output and standard error."""
        return tool("bootmem-linux", *words, folder=self.work)

    def make(self, entries, line, descriptors=()):
        """Writes the inputs of a machine."""
        page, more = inputs.map_files(entries)
        for name, data in (("zp", page), ("line", line), ("efi", inputs.efi_map(descriptors)),
                           ("ext", more or extension([]))):
            write(self.path(name), data)
        return ["--cmdline", "line", "--efi", "efi", "--e820ext", "ext", "zp"]

    def test_far(self):
        """Descriptors that end past 2^64 or have no pages are left out, and the others are claimed. The
        program itself refuses the far one."""
        for what, one, said in (
            ("far", (7, TOP - 8192, 3, 15), "its 0x3 pages end beyond 2^64"),
            ("up to 2^64", (7, TOP - 4096, 1, 15), "its 0x1 pages end beyond 2^64"),
            ("far by its pages", (4, 0x3E000000, 1 << 52, 15),
             "its 0x10000000000000 pages end beyond 2^64"),
            ("no pages", (4, 0x3E000000, 0, 15), "it has no pages"),
            ("below 2^64", (7, TOP - 8192, 1, 15), None),
            ("above 2^46", (7, 1 << 46, 256, 15), None),
        ):
            words = ["--report", "crash", "--kernel", "64M,16M", *self.make(machine_of(GIB),
                                                                            "crashkernel=64M",
                                                                            [one, SERVICES])]
            status, _, theirs = ran([PROGRAM61, *words], folder=self.work)
            is_far = said is not None and "beyond" in said
            self.check(f"{what}: the program", (status, theirs), (5,
                                                                  b"bootmem61: efi: descriptor 0 too far\n") if is_far else (0, b""))
            status, out, err = self.linux("--explain", *words)
            left = re.findall(r"descriptor (\d+) of EFI's memory map, at 0x(\w+): (.*), so it is left out \((\w+)\)", err)
            self.check(f"{what}: left out", (status, left), (0, [("0", f"{one[1]:016x}", said,
                                                                  RULE)] if said else []))
            self.check(f"{what}: the others are claimed",
                       claims_by_rule(err)["efi_reserve_boot_services"], [(0x3E400000, 0x3E500000)])
            self.has(f"{what}: the area", out, "crash at 0x000000003")
        far = [(7, TOP - 4096 * place, 9, 15) for place in range(1, 7)]
        _, _, err = self.linux(*self.make(machine_of(GIB), "quiet", [*far[:3], SERVICES,
                                                                     *far[3:]]))
        self.check("several", re.findall(r"descriptor (\d+) of", err), ["0", "1", "2", "4"])
        self.has("several: the rest", err,
                 "changed: 2 more descriptors of EFI's memory map: left out")

    def test_far_added(self):
        """With add_efi_memmap the kernel adds a far descriptor to its map before it drops it. The tool
        says so, and adds the other descriptors."""
        added = (7, 2 * GIB, 256, 15)
        for line, one, says in (("add_efi_memmap", (7, TOP - 4096, 1, 15), True),
                                ("add_efi_memmap=1", (7, TOP - 4096, 1, 15), True),
                                ("quiet", (7, TOP - 4096, 1, 15), False), ("add_efi_memmap",
                                                                           (7, GIB, 0, 15),
                                                                           False)):
            status, out, err = self.linux("--report", "map", *self.make(machine_of(GIB), line,
                                                                        [one, added]))
            self.check(f"{line} {one}", (status,
                                         "the map may never settle (do_add_efi_memmap)" in err),
                       (0, says))
            self.check(f"{line} {one}: the rest",
                       "0x0000000080000000..0x00000000800fffff 1 usable" in out, line != "quiet")

    def test_clean(self):
        """The remaining map has the bytes of the other descriptors. A malformed map stays as it is."""
        one, other, far = SERVICES, (7, 2 * GIB, 256, 0x4000F), (7, TOP - 4096, 9, 15)
        cleaned = linux_map.clean_descriptors(inputs.efi_map([one, far, other]))
        self.check("the others", (cleaned.data, [place for place, _ in cleaned.dropped]),
                   (inputs.efi_map([one, other]), [1]))
        whole = inputs.efi_map([far])
        for what, data in (("a part of a descriptor", whole + bytes(7)), ("no header", b"abc"),
                           ("a short stride", b"\1" + whole[1:])):
            self.check(what, linux_map.clean_descriptors(data), (data, []))

    def test_image(self):
        """The image becomes RAM after EFI's map has been added, whatever the zero page, EFI's map or the
        command line says."""
        efi = [(7, GIB, 256, 15), (6, GIB + MIB, 1, 0x800000000000000F)]
        added = ["0x0000000040000000..0x00000000400fffff 1 usable",
                 "0x0000000040100000..0x0000000040100fff 2 reserved"]
        whole = [LOW, (MIB, 233 * MIB, RAM)]
        for what, entries, line, more, kept in (
            ("the zero page", BAD, "add_efi_memmap", [],
             "0x0000000002130000..0x00000000021fffff 2 reserved"),
            ("the zero page, a value", BAD, "add_efi_memmap=1 quiet", [],
             "0x0000000002130000..0x00000000021fffff 2 reserved"),
            ("EFI's map", whole, "add_efi_memmap", [(0, 32 * MIB, 512, 15)],
             "0x0000000002130000..0x00000000021fffff 2 reserved"),
            ("the line", whole, "memmap=2M$32M add_efi_memmap", [],
             "0x0000000002130000..0x00000000021fffff 2 reserved"),
            ("a removed end", whole, "mem=32M add_efi_memmap", [], added[0]),
            ("a user map", whole, "memmap=exactmap memmap=640K@0 memmap=31M@1M add_efi_memmap", [],
             added[0]),
        ):
            words = self.make(entries, f"{line} crashkernel=4M@4M -- mem=1M", efi + more)
            status, out, err = self.linux("--report", "map,crash", *IMAGE, *words)
            lines = out.splitlines()
            self.check(f"{what}: it is said", (status,
                                               "becomes RAM (e820_add_kernel_range)" in err,
                                               "no word of the line" in err), (0, True, False))
            self.check(f"{what}: EFI's map is added", [one for one in added if one not in lines],
                       [])
            self.check(f"{what}: outside the image", kept in lines, True)
            self.check(f"{what}: up to its end",
                       any(one.endswith("..0x000000000212ffff 1 usable") for one in lines), True)
            self.check(f"{what}: the rest of the line", lines[-1],
                       "crash at 0x0000000000400000..0x00000000007fffff")
            self.check(f"{what}: the place", "the map has no RAM at" in err, False)
            alone = program(self.work, "--report", "map", *IMAGE, *words, path=PROGRAM61)
            self.check(f"{what}: the program alone", (bool(alone), "..0x000000000212ffff" in alone),
                       (True, False))

    def test_image_in_table(self):
        """The new table has all entries, in the zero page and an extension. Other fields of the zero page
        stay."""
        entries = [(0, 10, 1), (10, 30, 2), (50, 50, 3), (200, 10, 4)]
        for span, wanted in (((20, 60), [(0, 10, 1), (10, 10, 2), (20, 40, 1), (60, 40, 3),
                                         (200, 10, 4)]),
                             ((15, 25), [(0, 10, 1), (10, 5, 2), (15, 10, 1), (25, 15, 2),
                                         (50, 50, 3), (200, 10, 4)]),
                             ((10, 40), [(0, 10, 1), (10, 30, 1), (50, 50, 3), (200, 10, 4)]),
                             ((110, 120), [(0, 10, 1), (10, 30, 2), (50, 50, 3), (110, 10, 1),
                                           (200, 10, 4)])):
            self.check(f"RAM at {span}", linux_map.with_ram(entries, *span), wanted)
        page = inputs.zero_page([(0, 1, 1)] * 5, (768 * MIB, MIB))
        many = [(place * 4096, 4096, 1 + place % 2) for place in range(130)]
        made, more = linux_map.with_table(page, many)
        self.check("130 entries", (made[inputs.COUNT], entries_of(made, 128, inputs.ENTRIES),
                                   inputs.entries_of(more[16:])), (128, many[:128], many[128:]))
        self.check("other fields", linux_map.with_table(made, [(0, 1, 1)] * 5), (page, None))
        spread = [LOW, (MIB, 15 * MIB, RAM), *((64 * MIB + 2 * place * MIB, MIB,
                                                RAM) for place in range(140))]
        words = self.make(spread, "add_efi_memmap", [(7, GIB, 256, 15)])
        status, out, _ = self.linux("--report", "map", *IMAGE, *words)
        wanted = [f"\n{base:#018x}.." for base, _, _ in spread[1:]] + ["\n0x0000000040000000..",
                                                                       "..0x000000000212ffff 1 usable\n"]
        self.check("142 runs and the image", (status, [one for one in wanted if one not in out]),
                   (0, []))

    def test_line(self):
        """Words that change the map are removed. Other words, and the words after --, stay."""
        for line, wanted in (("quiet mem=1G memmap=1M$1M a=b", "quiet a=b"), ("add_efi_memmap",
                                                                              ""),
                             ("mem=1G -- mem=2G", "-- mem=2G"),
                             ("memory=1 crashkernel=1G-:64M", "memory=1 crashkernel=1G-:64M"),
                             ('"mem=1 G" x="a b"', 'x="a b"')):
            self.check(line, linux_map.without_edits(line), wanted)


LOG = """BIOS-provided physical RAM map:
reserve setup_data: [mem 0x0000000000100000-0x000000002fffffff] usable
reserve setup_data: [mem 0x0000000030001000-0x000000003000102b] usable
reserve setup_data: [mem 0x000000003000102c-0x00000000300fffff] usable
reserve setup_data: [mem 0x0000000030100000-0x000000003010001f] usable
reserve setup_data: [mem 0x0000000030100020-0x000000003ffdefff] usable
"""


class Nodes(Case):
    """Nodes of setup_data: their RAM gets type 128 (e820__reserve_setup_data)."""

    def runs(self, words, settings, folder=None):
        """The runs of type 128 in the inputs: first byte and end of each."""
        with as_linux.prepared(PROGRAM61, words, settings, folder) as boot:
            out = program(self.work, "--report", "map", *boot.words, path=PROGRAM61)
        return [(int(first, 16), int(last, 16) + 1) for first,
                last in re.findall(r"(0x\w+)\.\.(0x\w+) 128 ", out)]

    def page(self, first=0x30001000):
        """A zero page of 1 GiB that names the first node."""
        page = bytearray(inputs.zero_page(machine_of(GIB)))
        struct.pack_into("<Q", page, linux_claims.SETUP_DATA, first)
        return bytes(page)

    def test_types(self):
        """Each node in a log has the type, also with add_efi_memmap and edits. Without a log only the
        first node has it. Its length is that of the extension or of EFI's loader data."""
        write(self.path("zp"), self.page())
        write(self.path("log"), LOG)
        told = as_linux.Settings(told=linux_log.read_log(self.path("log")))
        nodes = [(0x30001000, 0x3000102C), (0x30100000, 0x30100020)]
        words = ["--kernel", "64M,16M", self.path("zp")]
        self.check("by a log", self.runs(words, told), nodes)
        self.check("without one", self.runs(words, as_linux.Settings()), [(0x30001000,
                                                                           0x30001010)])
        write(self.path("ext"), extension([(2 * GIB, MIB, RAM)] * 3))
        self.check("by the extension", self.runs(["--e820ext", self.path("ext"), *words],
                                                 as_linux.Settings()), [(0x30001000, 0x3000104C)])
        write(self.path("efi"), inputs.efi_map([(2, 0x30000000, 16, 15), (7, 2 * GIB, 256, 15)]))
        self.check("by loader data", self.runs(["--efi", self.path("efi"), *words],
                                               as_linux.Settings()), [(0x30001000, 0x30010000)])
        for line, wanted in (("add_efi_memmap", nodes), ("memmap=1M$512M", nodes),
                             ("mem=769M", nodes[:1]),
                             ("memmap=exactmap memmap=640K@0 memmap=800M@1M", nodes),
                             ("mem=512M", [])):
            write(self.path("line"), line)
            self.check(line, self.runs(["--cmdline", self.path("line"), "--efi", self.path("efi"),
                                        *words], told), wanted)

    def test_image_and_node(self):
        """If the map is made anew for the image, a node keeps the length that the extension has."""
        page = bytearray(inputs.zero_page(BAD))
        struct.pack_into("<Q", page, linux_claims.SETUP_DATA, 0x8000000)
        for name, data in (("zp", bytes(page)), ("line", b"add_efi_memmap"), ("ext",
                                                                              extension([(2 * GIB, MIB, RAM)] * 2))):
            write(self.path(name), data)
        words = [*IMAGE, "--cmdline", self.path("line"), "--e820ext", self.path("ext"),
                 self.path("zp")]
        self.check("the node", self.runs(words, as_linux.Settings()), [(0x8000000,
                                                                        0x8000000 + 56)])

    def test_claimed(self):
        """Each node is claimed, whether the log is that of --log or the one in a folder of bootmem-fleet."""
        os.makedirs(self.path("host"))
        for name, data in (("zp.bin", self.page()), ("log", LOG), ("kernel", "64M,16M")):
            write(self.path("host", name), data)
        _, _, err = tool("bootmem-linux", "--explain", "--log", "log", "--kernel", "64M,16M",
                         "zp.bin", folder=self.path("host"))
        nodes = claims_by_rule(err)["memblock_x86_reserve_range_setup_data"]
        self.check("by --log", nodes, [(0x30001000, 0x3000102C), (0x30100000, 0x30100020)])
        frees = []
        for log in (LOG, None):
            if log is None:
                os.remove(self.path("host", "log"))
            frees.append(int(tool("bootmem-fleet", "host", folder=self.work)[1].split("\t")[5]))
        self.check("a folder's log: a frame less is free", frees[1] - frees[0], 1)


if __name__ == "__main__":
    unittest.main()
