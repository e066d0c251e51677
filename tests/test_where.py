"""bootmem-where: one address by a run, by its frame's number, by a file and by standard input."""

import re
import unittest

from support import GIB, LOW, MIB, Case, example, text_of, tool, words_of, write, zero_page
from bootmem_tools import inputs

WHERE = """address  0x000000017be00040 (5.9 GiB), frame 1555968
map      usable 0x0000000100000000-0x000000027fffffff
memory   0x0000000100000000-0x000000017fffffff
owner    map 0 0x000000017be00000-0x000000017fdfffff
claimed  journal 19: claim map 0 0x000000017be00000..0x000000017fdfffff
node     0 0x0000000000000000-0x000000017fffffff
zone     Normal of node 0, frames 1048576 to 1572863
section  47 of node 0, map at 0x000000017fc00000, page structure at 0x000000017fcf8000
block    none: not free
"""


class Where(Case):
    """The history of an address."""

    def test_where(self):
        """An address in a run, in a file and on standard input, and as a frame's number; in a table of memblock; in a hole; refusals."""
        folder, words = example("q35-8g-numa2"), words_of("q35-8g-numa2")
        self.check("where", tool("bootmem-where", "0x17be00040", "--", *words, folder=folder), (0, WHERE, ""))
        for address in ("1M", "0x100000", "1048576", "1024K"):
            status, out, err = tool("bootmem-where", address, "--", *words, folder=folder)
            self.check(f"where {address}", (status, err), (0, ""))
            self.has(f"where {address}", out, "block    order 8 0x0000000000100000-0x00000000001fffff, free\n")
            self.has(f"where {address}", out, "claimed  never\n")
        self.has("where --frame", tool("bootmem-where", "--frame", "256", "--", *words, folder=folder)[1], "(1 MiB), frame 256\n")
        # record 1 of the memory table, which begins 8,192 bytes below the end of the kernel's image
        self.has("where, a table", tool("bootmem-where", "0x43fe018", "--", *words, folder=folder)[1],
                 "table    memory of memblock, record 1\n")
        # the newest claim counts: the kernel claims the first 64 KiB, and later the first MiB
        self.has("where, claimed twice", tool("bootmem-where", "0", "--", *words, folder=folder)[1], "claimed  journal 10: claim low-1m ")
        self.has("where, the last byte", tool("bootmem-where", "0xffff", "--", *words, folder=folder)[1], "claimed  journal 10: claim low-1m ")
        self.has("where, the last byte of an entry", tool("bootmem-where", "0x7ffdefff", "map.txt", folder=folder)[1], "map      usable ")
        hole = tool("bootmem-where", "3G", "--", *words, folder=folder)[1]
        for part in ("map      none\n", "memory   none\n", "owner    none\n", "zone     none\n", "section  24, which has no memory\n"):
            self.has("where, a hole", hole, part)
        alone = "address  0x000000007fff0000 (2.0 GiB), frame 524272\nmap      reserved 0x000000007ffdf000-0x000000007fffffff\n"
        self.check("where FILE", tool("bootmem-where", "0x7fff0000", "map.txt", folder=folder), (0, alone, ""))
        self.check("where -", tool("bootmem-where", "0x7fff0000", "-", given=text_of(example("q35-8g-numa2", "map.txt"))), (0, alone, ""))
        with open(self.path("script"), "w", encoding="utf-8") as file:
            file.write("alloc 1 64K 4K max 16M\nfree 1\n")
        freed = tool("bootmem-where", "0xff0000", "--", "--script", self.path("script"), "zp.bin", folder=example("q35-1g"))[1]
        self.check("where, freed", re.findall(r"^(?:owner|freed|claimed) .*", re.sub(r"journal \d+", "journal N", freed), re.MULTILINE),
                   ["owner    none", "freed    journal N: free 0x0000000000ff0000..0x0000000000ffffff"])
        for bad in ("0xg", "12Q", "-5", "0x10000000000000000", "16777216T"):
            self.check(f"where {bad}", tool("bootmem-where", bad, "map.txt", folder=folder)[:2], (2, ""))
        self.check("where, --report", tool("bootmem-where", "0", "--", "--report", "map", "zp.bin", folder=folder)[:2], (2, ""))
        status, out, err = tool("bootmem-where", "0", "zp.bin", folder=folder)
        self.check("where, no reports", (status, out, err.endswith("words after --\n")), (1, "", True))
        status, out, err = tool("bootmem-where", "0", "--", "cmdline", folder=folder)
        self.check("where, refused", (status, out), (1, ""))
        self.has("where, refused", err, "bootmem: zeropage: wrong length")
        notes = (("--kernel", "0xc0000000,32M", "bootmem-where: --kernel 0xc0000000,32M: the map has no RAM at "
                  "0x00000000c0000000-0x00000000c1ffffff, so the image can't lie there whole; is it the place on another machine, or of another "
                  "boot (KASLR)?\n"),
                 ("--kernel", "0x7f000000,32M", "bootmem-where: --kernel 0x7f000000,32M: the map has no RAM at "
                  "0x000000007ffdf000-0x0000000080ffffff, so the image can't lie there whole; is it the place on another machine, or of another "
                  "boot (KASLR)?\n"), ("--kernel", "16M,52M", ""))
        for option, value, wanted in notes:
            for one, more in (("bootmem-where", ("0",)), ("bootmem-json", ()), ("bootmem-draw", ("--text",))):
                status, _, err = tool(one, *more, "--", option, value, "zp.bin", folder=folder)
                self.check(f"{one} {option} {value}", (status, err), (0, wanted.replace("bootmem-where", one)))
        self.check("where, no program", tool("bootmem-where", "0", "--program", "/nowhere", "--", "zp.bin", folder=folder)[:2], (1, ""))

    def test_own_words(self):
        """Words of the program that don't come after -- are refused, and the message says where they belong."""
        for one, more in (("bootmem-where", ("0",)), ("bootmem-json", ()), ("bootmem-draw", ("--text",))):
            status, out, err = tool(one, *more, "--srat", "srat.bin", folder=example("q35-8g-numa2"))
            self.check(f"{one}, no --", (status, out, err.partition("; ")[2]),
                       (2, "", f"the program's own words come after -- ({one} --help tells the words)\n"))
            status, out, err = tool(one, *more, "--srat", "--", "zp.bin", folder=example("q35-8g-numa2"))
            self.check(f"{one}, before --", (status, out, err.partition(": ")[2]),
                       (2, "", f"unrecognized arguments: --srat ({one} --help tells the words)\n"))
        status, out, err = tool("bootmem-json", "--report", "map", "zp.bin", folder=example("q35-8g-numa2"))
        self.check("json, a zero page", (status, out, err),
                   (1, "", "bootmem-json: zp.bin: no text: it has a zero byte, or put the program's own words after --\n"))

    def test_uncovered(self):
        """Memory that no block of the SRAT covers is reported, whether the table is used all the same or dropped."""
        write(self.path("zp"), zero_page([LOW, (MIB, GIB - MIB, 1)]))
        for frames, wanted in ((16, "16 frames of memory are in no block of the SRAT, and get the lowest node: "
                                "0x000000003fff0000-0x000000003fffffff"),
                               (65503, "the SRAT isn't used: 65503 frames of memory are in none of its blocks, 256 or more: "
                                "0x0000000030021000-0x000000003fffffff"), (0, None)):
            write(self.path("srat"), inputs.srat([(0, GIB - 4096 * frames, 0)]))
            for one, more in (("bootmem-where", ("0",)), ("bootmem-draw", ("--text",))):
                status, _, err = tool(one, *more, "--", "--kernel", "16M,32M", "--srat", "srat", "zp", folder=self.work)
                self.check(f"{one}, {frames} frames", (status, err), (0, f"{one}: {wanted}\n" if wanted else ""))
        write(self.path("srat"), inputs.srat([(0, 512 * MIB, 0), (512 * MIB + 4096, 512 * MIB - 8192, 1)]))
        self.check("two gaps", tool("bootmem-where", "0", "--", "--kernel", "16M,32M", "--srat", "srat", "zp", folder=self.work)[2],
                   "bootmem-where: 2 frames of memory are in no block of the SRAT, and get the lowest node: "
                   "0x0000000020000000-0x0000000020000fff, 0x000000003ffff000-0x000000003fffffff\n")


if __name__ == "__main__":
    unittest.main()
