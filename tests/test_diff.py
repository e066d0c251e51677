"""bootmem-diff: the kernels' own maps of two machines, two runs, a log, and inputs that can't be compared."""

import unittest

from support import BOOTS, Case, example, has_file, program, text_of, tool, words_of, write


class Diff(Case):
    """Differences by address."""

    def test_diff(self):
        """The kernels' own maps of two machines, two runs, and inputs that can't be compared."""
        folder = example("q35-8g-numa2")
        self.check("diff, equal", tool("bootmem-diff", "map.txt", "map.txt", folder=folder), (0, "", ""))
        # mem=2G removes what the machine of 4 GiB has above 2 GiB
        self.check("diff, texts", tool("bootmem-diff", "map.txt", "../q35-4g-mem2g/map.txt", folder=folder),
                   (1, "0x0000000100000000-0x000000027fffffff usable -> none\n", ""))
        self.check("diff, standard input", tool("bootmem-diff", "-", "map.txt", folder=example("pc-128m"),
                                           given=text_of(example("first", "map.txt")))[:2],
              (1, "0x0000000000000000-0x0000000000000fff none -> reserved\n"
                  "0x0000000000001000-0x000000000009fbff none -> usable\n"
                  "0x000000000009fc00-0x000000000009ffff none -> reserved\n"
                  "0x00000000000f0000-0x00000000000fffff none -> reserved\n"
                  "0x00000000fffc0000-0x00000000ffffffff none -> reserved\n"
                  "0x000000fd00000000-0x000000ffffffffff none -> reserved\n"))
        # two records of the one memory, and a range of one byte
        self.check("diff, joined", tool("bootmem-diff", "memory.txt", "../q35-4g-mem2g/memory.txt", folder=folder),
                   (1, "0x0000000100000000-0x000000027fffffff memory -> none\n", ""))
        cut = text_of(example("q35-8g-numa2", "map.txt")).replace("..0x000000000009fbff 1 usable", "..0x000000000009fbfe 1 usable\n"
                                                                   "0x000000000009fbff..0x000000000009fbff 5 unusable")
        self.check("diff, one byte", tool("bootmem-diff", "map.txt", "-", folder=folder, given=cut),
                   (1, "0x000000000009fbff-0x000000000009fbff usable -> unusable\n", ""))
        status, out, _ = tool("bootmem-diff", "--a", "zp.bin", "--b", "--cmdline cmdline zp.bin", folder=folder)
        self.check("diff, two runs", (status, out.splitlines()[:1]), (1, ["== owners"]))
        self.has("diff, two runs", out, "0x000000006f000000-0x000000007effffff none -> crash\n")
        self.check("diff, the same run", tool("bootmem-diff", "--a", "--kernel 16M,52M zp.bin", "--b", "--kernel=16M,52M 'zp.bin'", folder=folder),
                   (0, "", ""))
        assumed = "bootmem-diff: the kernel's place isn't known, so 16 MiB to 48 MiB is assumed; --kernel BASE,SIZE tells it\n"
        self.check("diff, an assumed place", tool("bootmem-diff", "--a", "--kernel 16M,52M zp.bin", "--b", "--kernel 16M,52M zp.bin",
                                             "--report", "owners", folder=folder), (0, "", ""))
        self.check("diff, it is said once", tool("bootmem-diff", "--a", "zp.bin", "--b", "zp.bin", folder=folder), (0, "", assumed))
        self.check("diff, no place matters", tool("bootmem-diff", "--report", "map", "--a", "zp.bin", "--b", "zp.bin", folder=folder), (0, "", ""))
        self.check("diff, other reports", tool("bootmem-diff", "map.txt", "memory.txt", folder=folder)[:2], (2, ""))
        status, _, err = tool("bootmem-diff", "cmdline", "map.txt", folder=folder)
        self.check("diff, no reports", (status, err), (2, "bootmem-diff: cmdline: no report of bootmem in it\n"))
        self.check("diff, no file", tool("bootmem-diff", "map.txt", "nothing.txt", folder=folder)[:2], (2, ""))
        self.check("diff, one side", tool("bootmem-diff", "--a", "zp.bin", folder=folder)[:2], (2, ""))
        self.check("diff, a refused run", tool("bootmem-diff", "--a", "zp.bin", "--b", "cmdline", folder=folder)[:2], (2, ""))
        self.check("diff, an open quotation", tool("bootmem-diff", "--a", "'", "--b", "zp.bin", folder=folder)[:2], (2, ""))
        self.check("diff, an empty map", tool("bootmem-diff", "map.txt", "-", folder=folder, given="== map\n== owners\n"),
                   (2, "", "bootmem-diff: B: the map is empty: no boot has such a map, so it wasn't written whole\n"))
        self.check("diff, zones", tool("bootmem-diff", "--report", "zones", "map.txt", "map.txt", folder=folder)[:2], (2, ""))
        self.check("diff, a broken line", tool("bootmem-diff", "map.txt", "-", folder=folder,
                                          given=text_of(example("first", "map.txt")) + "0x1..0x2\n")[:2], (2, ""))

    def test_log(self):
        """A kernel's log has the map, the memory, the nodes and the crash area that bootmem-linux gives its boot."""
        for name in (name for name in BOOTS if has_file(name, "log")):
            folder = example(name)
            log = text_of(example(name, "log"))
            area = tool("bootmem-linux", "--report", "crash", "--log", "log", *linux_words(name), folder=folder)[1]
            self.check(f"{name}: the area", tool("bootmem-diff", "log", "-", folder=folder, given=area), (0, "", ""))
            self.check(f"{name}: it is compared", "crash at" in area, "for crashkernel" in log)
            made = program(folder, "--report", "map,memory", *words_of(name))
            self.check(f"{name}: map and memory", tool("bootmem-diff", "-", "log", folder=folder, given=made), (0, "", ""))
        folder = example("q35-8g-numa2")
        log = text_of(example("q35-8g-numa2", "log"))
        moved = log.replace("Reserving 256MB of memory at 1776MB", "Reserving 128MB of low memory at 16MB for crashkernel\nReserving 256MB of memory at 1760MB")
        wanted = ("0x0000000001000000-0x0000000008ffffff none -> crash\n0x000000006e000000-0x000000006effffff none -> crash\n"
                  "0x000000007e000000-0x000000007effffff crash -> none\n")
        made = program(folder, "--report", "map,crash", *words_of("q35-8g-numa2"))
        write(self.path("made"), made)
        self.check("diff, another area", tool("bootmem-diff", self.path("made"), "-", given=moved), (1, f"== crash\n{wanted}", ""))
        self.check("diff, one report", tool("bootmem-diff", "--report", "map", self.path("made"), "-", given=moved), (0, "", ""))
        self.check("diff, a report that a log hasn't", tool("bootmem-diff", "--report", "owners", self.path("made"), "-", given=moved),
                   (2, "", "bootmem-diff: A has no report owners\n"))
        self.check("diff, a log without a map", tool("bootmem-diff", "-", "map.txt", folder=folder, given="BIOS-provided physical RAM map:\n"),
                   (2, "", "bootmem-diff: standard input: no report of bootmem in it\n"))


def linux_words(name):
    """The words of bootmem-linux for a machine."""
    more = ["--efi", "efi.bin"] if has_file(name, "efi.bin") and "--efi" not in words_of(name) else []
    return (text_of(example(name, "linux")).split() if has_file(name, "linux") else []) + more + words_of(name)


if __name__ == "__main__":
    unittest.main()
