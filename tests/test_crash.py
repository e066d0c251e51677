"""bootmem-crash: the kernels' own crash areas, the greatest sizes, the reasons why a size doesn't fit, and boots that panic."""

import json
import os
import re
import subprocess
import unittest

from support import (BOOTS, EXAMPLES, GIB, MIB, PROGRAM61, TOP, Case, example, has_file, machine_of, memory_of, srat, text_of, tool, words_of, write,
                     zero_page)
from bootmem_tools import crash as crash_module


def crash(name, *words):
    """Runs bootmem-crash for a boot. The result lacks the notes on what is assumed or unknown on most machines."""
    place = words_of(name)[words_of(name).index("--kernel") + 1]
    status, out, err = tool("bootmem-crash", "--kernel", place, *words, ".", folder=example(name))
    return status, out, re.sub(r"bootmem-crash: (assumed|unknown): .*\n", "", err)


PANICS = {
    "uncovered": ([], [(0, 0, 256 * MIB), (1, 256 * MIB + 0xC000, 800 * MIB)], "12 frames of memory are in no block of the SRAT"),
    "type 128": ([(GIB, 64 * MIB, 128)], [], "the last memory has type 128"),
    "2^46": ([((1 << 46) - 4096, 8192, 1)], [], "there is memory at 2^46 or above"),
}
# The tool's notes on boots whose inputs the kernel changes. The initrd's place is the one in the kernel's log.
CHANGED = {
    "pc-1g-initrdmoves": "the initrd isn't mapped whole: it moves to 0x1fa80000 (relocate_initrd)",
    "srat-initiator": "the SRAT: a generic initiator names domain 7 (acpi_parse_gi_affinity)",
    "srat-initiator-off": "the SRAT: a generic initiator that is disabled or can't be used ends the processors' pass "
                          "(acpi_parse_entries_array)",
}


class Crash(Case):
    """Crash areas that fit."""

    def test_fits(self):
        """The areas of the boots' own lines lie where their kernels had them. The greatest sizes fit, and nothing larger."""
        for name in BOOTS:
            if not has_file(name, "crash.txt"):
                continue
            status, out, err = crash(name)
            told = re.findall(r"0x\w{16}", text_of(example(name, "crash.txt")))
            asked = re.search(r"^line .* fits (.*)", out, re.MULTILINE)
            said = f"bootmem-crash: changed: {CHANGED[name]}\n" if name in CHANGED else ""
            self.check(f"crash {name}", (status, err, re.findall(r"0x\w{16}", asked.group(1)) if asked else None), (0, said, told))
            for form, suffix in (("plain", ""), ("high", ",high")):
                size = int(re.search(rf"^{form} +at most (\d+)M", out, re.MULTILINE).group(1))
                self.check(f"crash {name} {form}: {size}M", crash(name, "--size", f"{size}M{suffix}")[0], 0)
                self.check(f"crash {name} {form}: {size + 1}M", crash(name, "--size", f"{size + 1}M{suffix}")[0], 1)
        # between brk, up to 0x4410fff, and node data, from 0x1fa39000 on, at multiples of 16 MiB: the log buffer and its companions have
        # 1 MiB, 768 KiB and 2,816 KiB above it, below the initrd at 0x1fee4000
        self.check("crash, greatest", crash("pc-512m-crash64m")[1].splitlines()[0],
                   "plain  at most 426M, at 0x0000000005000000-0x000000001f9fffff")
        # the program alone claims no log buffer, so node data begins at 0x1feb9000
        self.check("crash --raw, greatest", crash("pc-512m-crash64m", "--raw")[1].splitlines()[0],
                   "plain  at most 430M, at 0x0000000005000000-0x000000001fdfffff")
        self.check("crash, below 4 GiB", crash("q35-8g-numa2")[1].splitlines()[1],
                   "       below 4 GiB at most 1966M, at 0x0000000005000000-0x000000007fdfffff")

    def test_why(self):
        """Reasons why an area doesn't fit, and warnings."""
        status, out, err = crash("q35-8g-numa2", "--size", "512M", "--size", "8G", "--size", "8G,high")
        self.check("crash, sizes", (status, err, [line for line in out.splitlines() if line[0] != " "]),
                   (1, "", ["size   crashkernel=512M fits at 0x000000005f000000-0x000000007effffff", "size   crashkernel=8G doesn't fit",
                            "size   crashkernel=8G,high doesn't fit"]))
        # brk ends at 0x4410fff, and the initrd begins at 0x7fed4000; the border of the nodes, at 6 GiB, splits the gap above 4 GiB
        self.has("crash, below 4 GiB", out, "       from 16 MiB on and below 4 GiB the greatest gap has room for 1966M: "
                 "0x0000000004411000-0x000000007fed3fff, between brk and initrd\n")
        self.has("crash, above", out, "between another node and node-data 1\n")
        status, out, err = crash("q35-1g", "--size", "64M@16M")
        self.check("crash, in use", (status, out, err),
                   (1, "size   crashkernel=64M@16M doesn't fit\n       of the place brk and kernel have bytes\n", ""))
        write(self.path("low"), b"crashkernel=3G,low crashkernel=1G,high\n")
        status, out, _ = crash("q35-8g-numa2", "--cmdline", self.path("low"), "--size", "1G,high")
        self.check("crash, no low part", (status, "its low part hasn't: below 4 GiB the greatest gap" in out), (1, True))
        assumed = "the kernel's place isn't known, so 16 MiB to 48 MiB is assumed; --kernel BASE,SIZE tells it\n"
        status, out, err = tool("bootmem-crash", "zp.bin", folder=example("q35-1g"))
        self.check("crash, assumed", (status, err.startswith(f"bootmem-crash: assumed: {assumed}")), (0, True))
        self.check("crash --raw, assumed", tool("bootmem-crash", "--raw", "zp.bin", folder=example("q35-1g"))[::2],
                   (0, f"bootmem-crash: {assumed}"))
        self.has("crash --raw, UEFI", crash("ovmf-4g-numa2", "--raw")[2], "the firmware is UEFI: the kernel claims more before the area")
        write(self.path("line"), b"crashkernel=auto\n")
        self.has("crash, as the kernel reads it", crash("q35-1g", "--cmdline", self.path("line"))[2], "word 1: crashkernel=auto: left out")
        write(self.path("line"), b"mem=2GB\n")
        status, _, err = crash("q35-1g", "--raw", "--cmdline", self.path("line"))
        self.check("crash --raw, as the program reads it", (status, "cmdline: word 1: mem" in err), (2, True))
        for words in (["--size", "x"], ["--size", "0"], ["--size", "1M,low"], ["--size", "1M@2M,high"]):
            self.check(f"crash {words}", tool("bootmem-crash", *words, "zp.bin", folder=example("q35-1g"))[:2], (2, ""))
        self.check("crash, no machine", tool("bootmem-crash", "nothing", folder=self.work)[:2], (2, ""))
        self.check("crash, no zero page", tool("bootmem-crash", "cmdline", folder=example("q35-1g"))[:2], (2, ""))

    def test_ranges(self):
        """If the line has ranges of total memory, the size is the one that the kernel picks: 1 GiB with a hole counts as 1 GiB."""
        for size, picked, first in (("512M-1G:64M,1G-2G:192M,2G-:256M", "192M", "0x0000000033000000"),
                                    ("1G-:64M@128M", "64M@128M", "0x0000000008000000")):
            status, out, _ = crash("q35-1g", "--raw", "--size", size)
            self.check(f"crash {size}", (status, out.startswith(f"size   crashkernel={size}, {picked} here, fits at {first}")), (0, True))
        status, out, _ = crash("q35-8g-numa2", "--raw", "--size", "1G-4G:192M,4G-:256M")
        self.check("crash, a range that bootmem reads as the kernel does",
                   (status, out.startswith("size   crashkernel=1G-4G:192M,4G-:256M, 256M here, fits at ")), (0, True))
        self.check("crash, no range", crash("q35-1g", "--raw", "--size", "2G-:64M")[:2],
                   (1, "size   crashkernel=2G-:64M, nothing here, doesn't fit\n       none of its ranges gives a size for this machine's total memory\n"))
        self.check("crash, ranges and high", crash("q35-1g", "--size", "1G-:64M,high")[:2], (2, ""))
        # without --raw the program picks, and refuses a size that isn't below total memory
        nothing = f"nothing here, doesn't fit\n       {crash_module.NOTHING}\n"
        for size, wanted in (
            ("512M-1G:64M,1G-2G:192M,2G-:256M", "192M here, fits at 0x0000000033000000"),
            ("2G-:64M", nothing),
            ("512M-:1G", nothing),
            ("512M-:1023M", "doesn't fit\n"),
            ("1G-:64M@128M", "64M here, fits at 0x0000000008000000"),
        ):
            status, out, _ = crash("q35-1g", "--size", size)
            self.check(f"crash by ranges {size}", (status, wanted in out),
                       (int("fits at" not in wanted), True))
        write(self.path("line"), b"crashkernel=512M-:1G crashkernel=64M,high\n")
        _, out, err = crash("q35-1g", "--cmdline", self.path("line"))
        self.check("crash, ranges that are refused, and high", (out.splitlines()[-1].startswith(
            "line   crashkernel=512M-:1G crashkernel=64M,high, 64M here, fits at "), err), (True, ""))

    def test_several(self):
        """Several machines, as text and as JSON. A faulty one doesn't keep the others from being shown."""
        status, out, err = tool("bootmem-crash", "--raw", "--size", "512M", "pc-512m-crash64m", "none", "q35-8g-numa2", folder=EXAMPLES)
        self.check("several", (status, [line for line in out.splitlines() if line[0] != " "]),
                   (2, ["== pc-512m-crash64m", "size   crashkernel=512M doesn't fit", "== q35-8g-numa2",
                        "size   crashkernel=512M fits at 0x000000005f000000-0x000000007effffff"]))
        self.has("several: trouble", err, "bootmem-crash: none: ")
        self.check("several: one doesn't fit",
                   tool("bootmem-crash", "--raw", "--size", "512M", "pc-512m-crash64m", "q35-8g-numa2", folder=EXAMPLES)[0], 1)
        status, out, err = tool("bootmem-crash", "--raw", "--json", "pc-512m-crash64m", "q35-8g-numa2", folder=EXAMPLES)
        found = [json.loads(line) for line in out.splitlines()]
        self.check("several --json", (status, err, [(one["machine"], one["fits"]) for one in found]),
                   (0, "", [("pc-512m-crash64m", True), ("q35-8g-numa2", True)]))
        area = {"first": "0x0000000005000000", "last": "0x000000001fdfffff", "low": None,
                "total": 430 * MIB}
        self.check("--json: greatest", found[0]["greatest"], {form: {"size": 430 * MIB, "area": area} for form in ("plain", "high")})
        self.check("--json: below 4 GiB", found[1]["greatest"]["plain"]["below_4g"]["size"], 1966 * MIB)
        area = {"first": "0x000000001b000000", "last": "0x000000001effffff", "low": None,
                "total": 64 * MIB}
        self.check("--json: the line", found[0]["asked"], [{"from": "line", "asked": "crashkernel=64M", "picked": None, "fits": True, "area": area,
                                                            "reasons": []}])

    def test_low_part(self):
        """An area above 4 GiB has a low part, one below 4 GiB has none. Both parts are printed with
        their sizes and the sum. The low part has 256 MiB, or the size that the line asks for."""
        machine = "q35-8g-numa2"
        write(self.path("low"), b"quiet crashkernel=128M,low crashkernel=64M\n")
        for words, high, low, both in (([], 512, 256, "768 MiB"), (["--cmdline", self.path("low")],
                                                                   512, 128, "640 MiB"),
                                       ([], 1920, 256, "2.1 GiB"), ([], 4091, 256, "4.2 GiB"),
                                       ([], 1, 256, "257 MiB")):
            size = f"{high}M,high"
            status, out, _ = crash(machine, *words, "--size", size)
            places = [(int(first, 16), int(last, 16) + 1) for first,
                      last in re.findall(r"(0x\w{16})-(0x\w{16})", out)]
            self.check(f"{size}, {low} MiB low: sizes", (status, [(end - first) // MIB for first,
                                                                  end in places]),
                       (0, [high, low]))
            self.check(f"{size}: above and below 4 GiB", [first >= 4 * GIB for first, _ in places],
                       [True, False])
            self.check(f"{size}: the sum", out.endswith(f" ({low} MiB), {both} in all\n"), True)
            _, out, _ = crash(machine, *words, "--json", "--size", size)
            area = json.loads(out)["asked"][0]["area"]
            told = [(int(one["first"], 16), int(one["last"],
                                                16) + 1) for one in (area, area["low"])]
            self.check(f"{size}: --json", (told, area["total"]), (places, (high + low) * MIB))
        status, out, _ = crash(machine, "--size", "512M,high", "--size", "512M")
        self.check("several sizes", [line.count("0x") for line in out.splitlines()], [4, 2])
        self.has("no low part, no sum", out,
                 "crashkernel=512M fits at 0x000000005f000000-0x000000007effffff\n")

    def test_few_boots(self):
        """The greatest size is found in a few boots, also if later maps find no place for themselves. The next size always fails."""
        for size, most in ((16 * GIB, 8), (1000 * GIB, 10)):
            write(self.path("zp"), zero_page(machine_of(size)))
            own = crash_module.Machine(crash_module.read_words(["--kernel", "16M,52M", "--program", PROGRAM61, self.path("zp")]))
            self.addCleanup(own.files.close)
            texts, _ = own.run("", ["map", "nodes", "memory", "journal"])
            for suffix in ("", ",high"):
                own.boots = 0
                found, outcome = crash_module.greatest(own, texts, suffix)
                self.check(f"{size // GIB} GiB{suffix}: few boots", own.boots <= most, True)
                self.check(f"{size // GIB} GiB{suffix}: it fits, and one more doesn't", (own.tried(f"crashkernel={found}M{suffix}").ranges,
                           own.tried(f"crashkernel={found + 1}M{suffix}").ranges), (outcome.ranges, []))

    def test_progress(self):
        """On a terminal a line shows the progress of the search, and disappears when it ends."""
        master, slave = os.openpty()
        with os.fdopen(master, "rb", buffering=0) as terminal:
            done = subprocess.run([os.path.join(TOP, "tools", "bootmem-crash"), "--kernel", "16M,52M", "zp.bin"], stdout=subprocess.DEVNULL,
                                  stderr=slave, cwd=example("q35-1g"), env={**os.environ, "BOOTMEM61": PROGRAM61}, check=False)
            os.close(slave)
            shown = terminal.read(65536)
        self.check("crash, progress", (done.returncode, b"bootmem-crash: boot 1: crashkernel=" in shown, shown.endswith(b"\r\x1b[K")),
                   (0, True, True))

    def test_panics(self):
        """Both tools report boots on which Linux 6.1 is known to panic, and don't report similar boots on which it doesn't."""
        for what, (entries, blocks, part) in PANICS.items():
            folder = self.path(what.replace(" ", ""))
            os.mkdir(folder)
            write(os.path.join(folder, "zp.bin"), zero_page(machine_of(GIB) + entries))
            write(os.path.join(folder, "iomem"), b"00001000-0009fbff : System RAM\n00100000-3ffdefff : System RAM\n")
            if blocks:
                write(os.path.join(folder, "srat.bin"), srat(*(memory_of(*block) for block in blocks)))
            self.has(f"panics, {what}: crash", tool("bootmem-crash", "--size", "1M", folder)[2], f"Linux 6.1 panics on this boot: {part}")
            self.has(f"panics, {what}: live", tool("bootmem-live", folder)[1], f"panics   {part}")
        for what, entries, blocks in (("covered", [], [(0, 0, 256 * MIB), (1, 256 * MIB, 800 * MIB)]),
                                      ("not covered", [], [(0, 0, 255 * MIB), (1, 256 * MIB, 800 * MIB)]),
                                      ("type 128 below", [(8 * GIB, MIB, 1), (GIB, 64 * MIB, 128)], []),
                                      ("below 2^46", [((1 << 46) - 4096, 4096, 1)], [])):
            write(self.path("zp"), zero_page(machine_of(GIB) + entries))
            write(self.path("srat"), srat(*(memory_of(*block) for block in blocks)))
            words = ["--srat", self.path("srat")] if blocks else []
            status, _, err = tool("bootmem-crash", "--size", "1M", *words, self.path("zp"))
            self.check(f"panics, {what}", (status, "panics" in err), (0, False))


if __name__ == "__main__":
    unittest.main()
