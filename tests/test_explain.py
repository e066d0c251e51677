"""The second line that the installed commands print after a refusal: which word or file is wrong, and why."""

import os
import subprocess
import unittest

from support import MACHINE, PROGRAM, TOP, Case, bytes_of, example, ran, rows_of, unsealed, write, zero_page
from bootmem_tools import explain
from bootmem_tools.words import BOOTMEM61, OPTIONS

# The words of a run, and the line that explains what is wrong. The program ends with status 2 for each.
USAGE = rows_of("""
 | no zero page is named: bootmem [OPTION].. ZEROPAGE; 'bootmem --help' lists the options
--cmdlin line zp | --cmdlin: no such option; did you mean --cmdline?
-report map zp | -report: did you mean --report?
-zp.bin | -zp.bin: no option; a file of this name is given as ./-zp.bin
zp --help | --help: must be the first word
--report maps zp | --report maps: no such report; did you mean map?
--report map,zone zp | --report map,zone: zone: no such report; did you mean zones?
--report map,,zones zp | --report map,,zones: an empty name; names have one comma between each two, and no blank
--report map, zp | --report map,: an empty name; names have one comma between each two, and no blank
--report= zp | --report : an empty name; names have one comma between each two, and no blank
--report Map zp | --report Map: names of reports are in lower case: map
--Report map zp | --Report: no such option; did you mean --report?
--kernel 16M zp | --kernel 16M: 16M has no size after it: BASE,SIZE, as 16M,32M
--mirror 1G,1G:16M zp | --mirror 1G,1G:16M: 16M has no size after it: BASE,SIZE, as 16M,32M
--kernel 16M, zp | --kernel 16M,: a size is missing: BASE,SIZE
--kernel 0x1000001,32M zp | --kernel 0x1000001,32M: the address 0x1000001 isn't a multiple of 4,096: 0x1000000 and 0x1001000 are
--kernel 16M,0x3400100 zp | --kernel 16M,0x3400100: the size 0x3400100 isn't a multiple of 4,096: 0x3400000 and 0x3401000 are
--kernel 16M,52MB zp | --kernel 16M,52MB: 52MB: no size; without the B: 52M
--kernel 16M,52MiB zp | --kernel 16M,52MiB: 52MiB: no size; without the iB: 52M
--kernel 16M,x zp | --kernel 16M,x: x: no size up to 2^64 - 1; a size is a number, and K, M, G, T, P or E may follow: 16M, 0x1000000
--kernel 4096,32M zp | --kernel 4096,32M: the address 0x1000 is below 0x100000
--kernel 16M,4096 zp | --kernel 16M,4096: the size 0x1000 is below 0x2000
--kernel 64T,1M zp | --kernel 64T,1M: the image ends above 2^46 (--la57 allows 2^52)
--la57 --kernel 4P,1M zp | --kernel 4P,1M: the image ends above 2^52
--mirror 0xffffffffffffffff,1 zp | --mirror 0xffffffffffffffff,1: base and size together are above 2^64 - 1
one two | two: a second zero page, after one; only one may be named
-- one two | two: a second zero page, after one; only one may be named
--report map --report map zp | --report: given twice; each option may stand once
--la57 --la57 zp | --la57: given twice; each option may stand once
--la57=yes zp | --la57=yes: --la57 has no value
--cmdline | --cmdline: its value is missing: --cmdline FILE
--cmdline --srat zp | --cmdline --srat: a value doesn't begin with -; if it is meant, write --cmdline=--srat
- one | one: a second zero page, after -; only one may be named
--cmdline - --srat | --srat: its value is missing: --srat FILE
--make 1 | --make 1: a number from 2 to 3,000, in decimal digits
--make 3 zp | zp: --make takes the place of a zero page; leave one of them out
--make 3 --e820ext ext | --e820ext: --make takes the place of an extension; leave one of them out
--claims early zp | --claims: no such option; bootmem61 has it
--report crash,claims zp | --report crash,claims: claims: no such report; bootmem61 has it
""")
USAGE61 = rows_of("""
 | no zero page is named: bootmem61 [OPTION].. ZEROPAGE; 'bootmem61 --help' lists the options
--claim early zp | --claim: no such option; did you mean --claims?
--claims early --claims late zp | --claims: given twice; each option may stand once
--claims | --claims: its value is missing: --claims FILE
--claims --srat zp | --claims --srat: a value doesn't begin with -; if it is meant, write --claims=--srat
--claims early | no zero page is named: bootmem61 [OPTION].. ZEROPAGE; 'bootmem61 --help' lists the options
--report claim zp | --report claim: no such report; did you mean claims?
--report map,Claims zp | --report map,Claims: Claims: names of reports are in lower case: claims
--make 3 zp | zp: --make takes the place of a zero page; leave one of them out
""")
BUILT61 = os.path.join(TOP, "bootmem61")
AUDIT = rows_of("""
 | 0 names; three reports are needed: bootaudit [--la57] MAP OWNERS BLOCKS
a b | 2 names; three reports are needed: bootaudit [--la57] MAP OWNERS BLOCKS
a b c d | 4 names; three reports are needed: bootaudit [--la57] MAP OWNERS BLOCKS
a b c --la57 | --la57: stands once, before the names
--la75 a b c | --la75: did you mean --la57?
a b -c | -c: no option; a file of this name is given as ./-c
a b --version | --version: must be the first word
""")


def split(text):
    """The words of a row; they are separated by blanks."""
    return text.split()


class Explained(Case):
    """The line that follows the program's own."""

    def test_usage(self):
        """The program refuses each row, and the line names the wrong word."""
        for text, why in USAGE:
            self.check(f"bootmem {text}", ran([PROGRAM, *split(text)])[0], 2)
            self.check(f"bootmem {text}: why", explain.explain("bootmem", 2, split(text)), why)
        self.check("each option without its value, or twice", [explain.explain("bootmem", 2, [f"--{name}"] * 2) is None for name in OPTIONS],
                   [False] * len(OPTIONS))
        self.check("no UTF-8", explain.explain("bootmem", 2, ["--report", os.fsdecode(b"\377")]), "word 2 isn't UTF-8")
        many = ":".join(["1M,1M"] * 65)
        self.check("65 ranges", (ran([PROGRAM, "--mirror", many, "zp"])[0], explain.explain("bootmem", 2, ["--mirror", many, "zp"])),
                   (2, f"--mirror {many}: 65 ranges; at most 64"))

    def test_usage61(self):
        """Wrong words of bootmem61. The program itself runs only if it has been built."""
        for text, why in USAGE61:
            if os.path.exists(BUILT61):
                self.check(f"bootmem61 {text}", ran([BUILT61, *split(text)])[::2], (2, b"bootmem61: usage\n"))
            self.check(f"bootmem61 {text}: why", explain.explain("bootmem61", 2, split(text)), why)
        for text, why in USAGE[1:-2]:
            self.check(f"bootmem61 {text}: as bootmem", explain.explain("bootmem61", 2, split(text)), why)
        self.check("each option without its value, or twice", [name for name in BOOTMEM61.options
                                                               if explain.explain("bootmem61", 2, [f"--{name}"] * 2) is None], [])

    def test_audit(self):
        """Wrong words of bootaudit. The program itself runs only if it has been built."""
        audit = os.path.join(TOP, "bootaudit")
        for text, why in AUDIT:
            if os.path.exists(audit):
                self.check(f"bootaudit {text}", ran([audit, *split(text)])[0], 2)
            self.check(f"bootaudit {text}: why", explain.explain("bootaudit", 2, split(text)), why)

    def test_unreadable(self):
        """A file that can't be read: missing, a folder, no permission."""
        write(self.path("zp"), b"")
        os.mkdir(self.path("folder"))
        os.symlink("nothing", self.path("link"))
        for words, name, why in ((["none"], "none", "it doesn't exist"), (["a/b"], "a/b", "there is no folder a"),
                                 (["folder"], "folder", "it is a folder"), (["zp/x"], "zp/x", "Not a directory"),
                                 (["link"], "link", "it is a link to nothing, which doesn't exist"),
                                 (["--srat", "none", "--cmdline=folder", "zp"], "folder", "it is a folder")):
            status, _, err = ran([os.path.join(TOP, "tools", "bootmem-explain"), "bootmem", "3", *words], folder=self.work)
            self.check(f"{words}: why", (status, err.decode()), (0, f"bootmem: {name}: {why}\n"))
        for words, name in ((["--claims", "folder", "--script", "none", "zp"], "none: it doesn't exist"),
                            (["--pages", "none", "--claims", "folder", "zp"], "folder: it is a folder")):
            status, _, err = ran([os.path.join(TOP, "tools", "bootmem-explain"), "bootmem61", "3", *words], folder=self.work)
            self.check(f"bootmem61 {words}: claims are read after the script", (status, err.decode()), (0, f"bootmem61: {name}\n"))
        self.check("an audit", ran([os.path.join(TOP, "tools", "bootmem-explain"), "bootaudit", "3", "--la57", "zp", "folder", "none"],
                                   folder=self.work)[2], b"bootaudit: folder: it is a folder\n")
        if os.getuid():
            os.chmod(self.path("zp"), 0)
            self.check("no permission", explain.unreadable(self.path("zp")), "there is no permission to read it")
        else:
            os.chmod(self.path("zp"), 0)
            os.chmod(self.work, 0o755)
            done = subprocess.run(["setpriv", "--reuid=65534", "--clear-groups", "--", "python3", os.path.join(TOP, "tools", "bootmem-explain"),
                                   "bootmem", "3", self.path("zp")], stderr=subprocess.PIPE, check=False)
            self.check("no permission", done.stderr.decode(), f"bootmem: {self.path('zp')}: there is no permission to read it\n")
        self.check("nothing to say of files that can be read", explain.explain("bootmem", 3, ["/dev/null"]), None)

    def test_checksum(self):
        """If the program refuses a table for its checksum, the line has the right checksum. For other faults there is no line."""
        write(self.path("zp"), zero_page(MACHINE))
        whole = bytes_of(example("q35-8g-numa2", "srat.bin"))
        for table, line, why in ((whole, None, None), (unsealed(whole), "bootmem: srat: checksum",
                                  "bad: its bytes sum to 0x01, not 0: its checksum, the byte at 9, is "
                                  f"{whole[9] + 1:#04x}; {whole[9]:#04x} is right"),
                                 (whole[:-1] + b"\x05", "bootmem: srat: checksum",
                                  "bad: its bytes sum to 0x05, not 0: its checksum, the byte at 9, is "
                                  f"{whole[9]:#04x}; {whole[9] - 5:#04x} is right"),
                                 (whole[:-1], "bootmem: srat: length", None), (b"", "bootmem: srat: short", None)):
            write(self.path("bad"), table)
            status, _, err = ran([PROGRAM, "--report", "map", "--srat", "bad", "zp"], folder=self.work)
            self.check(f"{line}: the program", (status, err.decode().rstrip()), (0 if line is None else 5, line or ""))
            got = ran([os.path.join(TOP, "tools", "bootmem-explain"), "bootmem", "5", "--srat", "bad", "zp"], folder=self.work)[2].decode()
            self.check(f"{line}: why", got, f"bootmem: {why}\n" if why else "")


if __name__ == "__main__":
    unittest.main()
