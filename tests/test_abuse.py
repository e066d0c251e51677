"""Each tool over input that it can't use: missing, unreadable, empty, truncated, binary and
endless. It prints one line, ends with its own status, and writes no file. No run takes long or
prints a traceback."""

import os
import shutil
import subprocess
import time
import unittest

from support import MACHINE, PROGRAM, PROGRAM61, TOP, Case, Counted, bytes_of, command_text, example, text_of, write, zero_page

MAP = text_of(example("first", "map.txt"))
LOG = "BIOS-provided physical RAM map:\nBIOS-e820: [mem 0x0-0x9fbff] usable\nBIOS-e820: [mem 0x100000-0x7fdffff] usable\n"
CLAIMS = "MEMBLOCK configuration:\n reserved[0x0]\t[0x0-0xffff], 0x10000 bytes flags: 0x0\nmemblock_reserve: [0x9f000-0x9ffff] f+0x1/0x2\n"
SECONDS = 60  # limit for a run

# Contents that no tool can use: nothing, bytes of every value, and bytes that aren't UTF-8.
EMPTY, BINARY, LETTERS = b"", bytes(range(256)) * 16, b"\xff\xfe" * 3000

# A tool, its words (INPUT stands for the input), its status if the input is wrong, and a right input.
READERS = [
    ("bootmem-where", ["1M", "INPUT"], 1, MAP),
    ("bootmem-draw", ["--output", "out", "INPUT"], 1, MAP),
    ("bootmem-draw", ["--text", "--output", "out", "INPUT"], 1, MAP),
    ("bootmem-diff", ["INPUT", "map"], 2, MAP),
    ("bootmem-diff", ["map", "INPUT"], 2, MAP),
    ("bootmem-json", ["INPUT"], 1, MAP),
    ("zp-from-log", ["--output", "out", "--e820ext", "ext", "--no-initrd", "INPUT"], 1, LOG),
    ("claims-from-log", ["--e820ext", "out", "--script", "script", "INPUT"], 1, CLAIMS),
    ("claims-from-log", ["--replay", "folder", "INPUT"], 1, CLAIMS),
]
# A tool, its words and its status, for inputs that aren't texts. All wrong bytes are refused.
FILES = [
    ("claims-from-log", ["--e820ext", "out", "--over", "INPUT", "--kernel", "16M,32M", "claims"], 1),
    ("bootmem-line", ["--e820ext", "INPUT", "ranges", "zp"], 2),
    ("bootmem-line", ["ranges", "INPUT"], 2),
    ("bootmem-crash", ["--kernel", "16M,52M", "INPUT"], 2),
    ("bootmem-crash", ["--kernel", "16M,52M", "--srat", "INPUT", "zp"], 2),
    ("bootmem-crash", ["--kernel", "16M,52M", "--e820ext", "INPUT", "zp"], 2),
    ("bootmem-where", ["1M", "--", "--kernel", "16M,52M", "INPUT"], 1),
    ("bootmem-draw", ["--output", "out", "--", "--kernel", "16M,52M", "INPUT"], 1),
    ("bootmem-json", ["--", "--kernel", "16M,52M", "INPUT"], 1),
    ("bootmem-diff", ["--a", "--kernel 16M,52M zp", "--b", "--kernel 16M,52M INPUT"], 2),
]
# Tools that read a command line. Any bytes are one, so only an unreadable or endless input is refused.
LINES = [
    ("bootmem-line", ["INPUT"], 2),
    ("bootmem-crash", ["--kernel", "16M,52M", "--cmdline", "INPUT", "zp"], 2),
]


class Abuse(Case):
    """Inputs that no tool can use."""

    def setUp(self):
        super().setUp()
        write(self.path("zp"), zero_page(MACHINE))
        write(self.path("map"), MAP)
        write(self.path("claims"), CLAIMS)
        write(self.path("ranges"), b"crashkernel=1G-:64M")
        os.mkdir(self.path("a folder"))
        for name, held in (("empty", EMPTY), ("binary", BINARY), ("letters", LETTERS)):
            write(self.path(name), held)

    def run_tool(self, name, words, given=None):
        """Runs a tool. Returns status, standard output, standard error and the seconds that it took."""
        command, begun = [os.path.join(TOP, "tools", name), *words], time.monotonic()
        Counted.last = command_text(command, self.work)
        done = subprocess.run(command, stdin=given or subprocess.DEVNULL, stdout=subprocess.PIPE, stderr=subprocess.PIPE, cwd=self.work,
                              env={**os.environ, "BOOTMEM": PROGRAM, "BOOTMEM61": PROGRAM61}, timeout=10 * SECONDS, check=False)
        return done.returncode, done.stdout.decode("utf-8", "replace"), done.stderr.decode("utf-8", "replace"), time.monotonic() - begun

    def is_refused(self, name, words, status, given=None):
        """Checks that the tool prints one line with its name, ends with this status in time, and writes nothing."""
        what = f"{name} {' '.join(words)}"
        before = sorted(os.listdir(self.work))
        got, out, err, seconds = self.run_tool(name, words, given)
        lines = err.splitlines()
        self.check(f"{what}: status and output", (got, out), (status, ""))
        self.check(f"{what}: one line", [line.startswith(f"{name}: ") for line in lines] if len(lines) == 1 else err, [True])
        self.check(f"{what}: nothing is written", sorted(os.listdir(self.work)), before)
        self.check(f"{what}: in time", seconds < SECONDS, True)

    def test_readers(self):
        """Tools that read a text, from a file and from standard input."""
        for name, words, status, whole in READERS:
            write(self.path("truncated"), whole[:-len(whole.splitlines(keepends=True)[-1]) // 2])
            for made in ("missing", "/proc/self/mem", "a folder", "empty", "binary", "letters", "truncated", "/dev/zero"):
                self.is_refused(name, [made if word == "INPUT" else word for word in words], status)
            with open("/dev/zero", "rb") as endless:
                self.is_refused(name, ["-" if word == "INPUT" else word for word in words], status, endless)
            with subprocess.Popen(["yes"], stdout=subprocess.PIPE) as yes:
                self.is_refused(name, ["-" if word == "INPUT" else word for word in words], status, yes.stdout)
                yes.kill()

    def test_files(self):
        """Tools that read files of bytes themselves, or hand them to the program."""
        for name, words, status in FILES:
            for made in ("missing", "/proc/self/mem", "binary", "letters", "empty", "/dev/zero"):
                self.is_refused(name, [word.replace("INPUT", made) for word in words], status)

    def test_lines(self):
        """Command lines: any bytes are one, as far as a kernel reads them."""
        for name, words, status in LINES:
            for made in ("missing", "/proc/self/mem", "a folder", "/dev/zero"):
                self.is_refused(name, [made if word == "INPUT" else word for word in words], status)
            for made in ("binary", "letters", "empty"):
                got, _, err, seconds = self.run_tool(name, [made if word == "INPUT" else word for word in words])
                # once crashkernel= is appended, a line of 2,047 bytes is too long
                is_well = got in (0, 1) or got == 2 and err.count("\n") == 1
                self.check(f"{name} {made}", (is_well, "Traceback" in err, seconds < SECONDS), (True, False, True))

    def test_folders(self):
        """Tools that read a folder of collect.sh, in which one file after another is unusable."""
        for file in ("zp.bin", "cmdline", "srat.bin", "e820ext.bin", "kernel", "iomem", "zoneinfo"):
            for made in ("binary", "/dev/zero", "/proc/self/mem"):
                folder = self.path("machine")
                shutil.copytree(example("q35-8g-numa2"), folder)
                write(os.path.join(folder, "iomem"), "00001000-0009fbff : System RAM\n")
                if os.path.exists(os.path.join(folder, file)):
                    os.remove(os.path.join(folder, file))
                os.symlink(self.path(made), os.path.join(folder, file))
                what = f"{file} of a folder: {made}"
                for name, words in (("bootmem-live", ["machine"]), ("bootmem-crash", ["--size", "1M", "machine"])):
                    got, out, err, seconds = self.run_tool(name, words)
                    refused = got == 2 and out == "" and len(err.splitlines()) == 1
                    self.check(f"{name}, {what}", (refused or got in (0, 1), "Traceback" in err, seconds < SECONDS), (True, False, True))
                    if made != "binary" and not (name == "bootmem-crash" and file in ("iomem", "zoneinfo")):
                        self.check(f"{name}, {what}: it is refused", (got, out, err.count("\n")), (2, "", 1))
                got, out, err, seconds = self.run_tool("bootmem-fleet", ["--cmdline-add", "quiet", "machine"])
                self.check(f"bootmem-fleet, {what}", (got in (0, 1), out.count("\n"), "Traceback" in err, seconds < SECONDS),
                           (True, 1, False, True))
                shutil.rmtree(folder)

    def test_collect(self):
        """collect.sh over files that never end or can't be read: it reports each of them, and ends."""
        for made in ("/dev/zero", "/proc/self/mem", "a folder"):
            for file in ("sys/kernel/boot_params/data", "proc/cmdline", "sys/firmware/acpi/tables/SRAT", "proc/iomem", "proc/zoneinfo",
                         "sys/kernel/boot_params/setup_data/0/type", "sys/kernel/boot_params/setup_data/0/data"):
                place = self.path("kernel")
                for folder in ("sys/kernel/boot_params/setup_data/0", "sys/firmware/acpi/tables", "proc"):
                    os.makedirs(os.path.join(place, folder))
                write(os.path.join(place, "sys/kernel/boot_params/data"), zero_page(MACHINE))
                write(os.path.join(place, "sys/kernel/boot_params/setup_data/0/type"), "0x1\n")
                write(os.path.join(place, "sys/kernel/boot_params/setup_data/0/data"), bytes(20))
                write(os.path.join(place, "proc/cmdline"), "quiet\n")
                if os.path.exists(os.path.join(place, file)):
                    os.remove(os.path.join(place, file))
                os.symlink(self.path(made), os.path.join(place, file))
                status, _, err, seconds = self.run_tool("collect.sh", ["--sys", "kernel/sys", "--proc", "kernel/proc", "gathered"])
                self.check(f"collect.sh, {file}: {made}", (status in (0, 1), seconds < SECONDS), (True, True))
                name = {"data": "zp.bin", "cmdline": "cmdline", "SRAT": "srat.bin", "iomem": "iomem", "zoneinfo": "zoneinfo"}.get(file.split("/")[-1])
                if name and "setup_data" not in file:
                    self.check(f"collect.sh, {file}: {made}: it is reported, and not gathered",
                               (f"collect.sh: {name}: " in err, os.path.exists(self.path("gathered", name))), (True, False))
                shutil.rmtree(place)
                shutil.rmtree(self.path("gathered"))

    def test_outputs(self):
        """If an output can't be written, no part of it is left, and existing files stay as they were."""
        write(self.path("log"), LOG)
        write(self.path("there"), b"old")
        for name, words in (("zp-from-log", ["--output", "there", "--e820ext", "none/ext", "--no-initrd", "log"]),
                            ("zp-from-log", ["--output", "there", "--e820ext", "a folder", "--no-initrd", "log"]),
                            ("bootmem-draw", ["--output", "none/out", "map"]), ("bootmem-draw", ["--output", "/dev/full", "map"])):
            self.is_refused(name, words, 1)
        self.check("a file that was there before", bytes_of(self.path("there")), b"old")

    def test_closed(self):
        """If standard input or output is closed, a tool prints one line and no traceback. It needs no standard output to write a file."""
        for name, words, status in (("bootmem-where", ["1M", "map"], 1), ("bootmem-json", ["map"], 1), ("bootmem-draw", ["map"], 1),
                                    ("bootmem-line", ["ranges"], 2), ("bootmem-where", ["1M"], 1), ("bootmem-draw", [], 1)):
            closing = "<&-" if name == "bootmem-draw" and not words or words == ["1M"] else ">&-"
            done = subprocess.run(["sh", "-c", f'"$0" "$@" {closing}', os.path.join(TOP, "tools", name), *words], stdout=subprocess.PIPE,
                                  stderr=subprocess.PIPE, cwd=self.work, env={**os.environ, "BOOTMEM": PROGRAM}, check=False)
            self.check(f"{name} {words} {closing}", (done.returncode, done.stdout, done.stderr.count(b"\n"), b"Traceback" in done.stderr),
                       (status, b"", 1, False))
        done = subprocess.run(["sh", "-c", '"$0" --output out map >&- 2>&-', os.path.join(TOP, "tools", "bootmem-draw")], cwd=self.work, check=False)
        self.check("bootmem-draw --output >&- 2>&-", (done.returncode, os.path.exists(self.path("out"))), (0, True))

    def test_no_program(self):
        """If the program isn't bootmem and prints nothing, one line or one row says so."""
        shutil.copytree(example("q35-1g"), self.path("machine"))
        for name, words, status in (("bootmem-where", ["1M", "--", "--kernel", "16M,52M", "zp"], 1), ("bootmem-crash", ["machine"], 2),
                                    ("bootmem-draw", ["--", "--kernel", "16M,52M", "zp"], 1), ("bootmem-crash", ["--raw", "machine"], 2),
                                    ("bootmem-live", ["machine"], 2)):
            got, out, err, _ = self.run_tool(name, ["--program", "/bin/true", *words])
            self.check(f"{name} {words} by /bin/true", (got, out, "is it bootmem?" in err, "Traceback" in err), (status, "", True, False))
        got, out, err, _ = self.run_tool("bootmem-fleet", ["--program", "/bin/true", "machine"])
        self.check("bootmem-fleet by /bin/true", (got, "is it bootmem?" in out, err), (1, True, ""))

    def test_texts(self):
        """Texts with impossible numbers or a byte order mark; outputs that are the tool's own inputs."""
        for order in ("99999999999999999999999", "62", "11"):
            write(self.path("orders"), f"== blocks\nnode 0 zone DMA order {order} 0x0000000000001000\n")
            for name, words in (("bootmem-draw", ["--output", "out"]), ("bootmem-where", ["1M"]), ("bootmem-json", [])):
                self.is_refused(name, [*words, "orders"], 1)
        write(self.path("marked"), b"\xef\xbb\xbf" + MAP.encode())
        self.is_refused("bootmem-where", ["1M", "marked"], 1)
        self.has("a byte order mark", self.run_tool("bootmem-where", ["1M", "marked"])[2], "marked: it begins with a UTF-8 mark")
        write(self.path("lines"), MAP.replace("\n", "\r\n"))
        self.check("lines that end with CR and LF", self.run_tool("bootmem-where", ["1M", "lines"])[:2],
                   self.run_tool("bootmem-where", ["1M", "map"])[:2])
        for name, words in (("bootmem-draw", ["--output", "map", "map"]), ("bootmem-draw", ["--html", "./map", "map"]),
                            ("bootmem-draw", ["--output", "zp", "--", "--kernel", "16M,52M", "zp"]),
                            ("claims-from-log", ["--e820ext", "claims", "claims"])):
            self.is_refused(name, words, 1)
        self.check("the inputs are unchanged", (text_of(self.path("map")), text_of(self.path("claims"))), (MAP, CLAIMS))


if __name__ == "__main__":
    unittest.main()
