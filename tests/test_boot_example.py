"""boot-example: the folder that it makes of a boot, and what it refuses. A fake QEMU replays the
boots of examples/."""

import os
import re
import struct
import sys
import unittest

from support import Case, bytes_of, example, has_file, machines, text_of, tool, write
from bootmem_tools import boot_example, kernel_log

# The fake QEMU: it keeps its words, writes the serial line, and answers the monitor from memory. The
# file `memory` has the first byte and the file of each part of it.
QEMU = f"""#!{sys.executable}
import json, os, shutil, socket, sys
folder = os.path.dirname(os.path.abspath(sys.argv[0]))
words = sys.argv[1:]
with open(os.path.join(folder, "words"), "w") as file:
    file.write("\\n".join(words))
if os.path.exists(os.path.join(folder, "fails")):
    sys.exit("qemu: no such board")
with open(os.path.join(folder, "memory")) as file:
    parts = [(int(line.split()[0], 0), open(os.path.join(folder, line.split()[1]), "rb").read())
             for line in file]
listener = socket.socket(socket.AF_UNIX)
listener.bind(words[words.index("-qmp") + 1].split(",")[0][5:])
listener.listen()
shutil.copy(os.path.join(folder, "console"), words[words.index("-serial") + 1][5:])
line = listener.accept()[0].makefile("rwb")
line.write(b'{{"QMP": {{}}}}\\n')
line.flush()
for text in line:
    asked = json.loads(text)
    answer, given = {{}}, asked["arguments"]
    if asked["execute"] == "pmemsave":
        data = bytearray(given["size"])
        for first, held in parts:
            low, high = max(first, given["val"]), min(first + len(held), given["val"] + len(data))
            if low < high:
                data[low - given["val"]:high - given["val"]] = held[low - first:high - first]
        with open(given["filename"], "wb") as file:
            file.write(data)
    elif asked["execute"] == "human-monitor-command":
        answer = "CR0=80050033 CR4=" + os.environ.get("CR4", "000006b0")
    line.write(json.dumps({{"event": "STOP"}}).encode() + b"\\n")
    line.write(json.dumps({{"return": answer}}).encode() + b"\\n")
    line.flush()
"""
NEXT = "[    0.000000] SLUB: HWalign=64\n"  # the line after the last one that is kept
BOOT_PARAMS = 0x123456  # address of the zero page in the fake image


def made_by_tool():
    """The machines that boot-example made: their command line begins with the words that it gives to
    the kernel."""
    return [
        name
        for name in machines()
        if has_file(name, "log") and text_of(example(name, "cmdline")).startswith(f"{boot_example.FIXED_LINE} ")
    ]


def places_of(name):
    """The memory of a machine as boot-example reads it: the first byte and the file of each part."""
    image = int(text_of(example(name, "words")).split("--kernel ")[1].split(",")[0], 16)
    found = [(image + BOOT_PARAMS, example(name, "zp.bin"))]
    for table, first in re.findall(r"ACPI: (SRAT|SLIT) 0x(\w+) ", text_of(example(name, "log"))):
        found.append((int(first, 16), example(name, f"{table.lower()}.bin")))
    return found


class BootExample(Case):
    """Folders of boots."""

    def lay(self, console, places):
        """Writes a kernel, and a fake QEMU with this serial line and this memory."""
        memory = "".join(f"{first:#x} {path}\n" for first, path in places)
        for name, data in (("qemu", QEMU), ("kernel", "bzImage"), ("console", console), ("memory", memory)):
            write(self.path(name), data)
        os.chmod(self.path("qemu"), 0o755)

    def run_tool(self, *more, **variables):
        """Runs the tool with the fake QEMU. Returns status, output and error."""
        words = ["--kernel", self.path("kernel"), "--output", self.path("made"), *more]
        return tool("boot-example", *words, "--", self.path("qemu"), "-m", "1G", variables=variables)

    def test_machines(self):
        """From its log and its memory the folder of each machine is made again, byte for byte. It has
        the report `crash` only if the program has that report."""
        names = made_by_tool()
        self.check("machines that boot-example made", len(names), 10)
        for name in names:
            self.lay(text_of(example(name, "log")) + NEXT, places_of(name))
            status, out, err = self.run_tool()
            self.check(f"boot-example {name}", (status, err), (0, ""))
            made = {os.path.relpath(os.path.join(folder, file), self.path("made"))
                    for folder, _, files in os.walk(self.path("made")) for file in files}
            self.check(f"boot-example {name}: what it says", {line.split(":")[0] for line in out.splitlines()}, made)
            for path in made:
                kept = bytes_of(example(name, path)) if has_file(name, path) else None
                if kept is not None or path not in ("crash.txt", "nodes.txt"):
                    self.check(f"boot-example {name}: {path}", bytes_of(self.path("made", path)) == kept, True)
                os.remove(self.path("made", path))

    def test_texts(self):
        """The maps and memblock's dumps in a log become the texts of the machine."""
        for name in machines():
            if has_file(name, "log"):
                lines = text_of(example(name, "log")).splitlines()
                self.check(f"{name}: map", kernel_log.map_text(lines), text_of(example(name, "map.txt")))
                self.check(f"{name}: memory", kernel_log.memory_text(lines), text_of(example(name, "memory.txt")))

    def test_given(self):
        """Nodes of setup_data, five-level paging, pages of 1 GiB and the file of an initrd appear in
        the folder or in QEMU's words."""
        log = text_of(example("q35-2g-shortlog", "log")) + "Using GB pages for direct mapping\n"
        page = bytearray(bytes_of(example("q35-2g-shortlog", "zp.bin")))
        struct.pack_into("<Q", page, 0x250, 0x5000000)
        entries = struct.pack("<QQI", 1 << 32, 4096, 2)
        nodes = struct.pack("<QII", 0x5000040, 9, 16) + bytes(48) + struct.pack("<QII", 0x5000000, 1, 20) + entries
        for name, data in (("page", page), ("nodes", nodes)):
            write(self.path(name), bytes(data))
        lines = log.splitlines(True)
        self.lay("".join(lines[:-2] + lines[-1:] + lines[-2:-1]) + NEXT, [(0x1000000, self.path("page")), (0x5000000, self.path("nodes"))])
        self.check("boot-example", self.run_tool("--line", "nokaslr", "--initrd", "mine", CR4="000016b0")[::2], (0, ""))
        self.check("the extension", bytes_of(self.path("made", "e820ext.bin")), struct.pack("<QII", 0, 1, 20) + entries)
        self.check("words", text_of(self.path("made", "words")),
                   "--cmdline cmdline --e820ext e820ext.bin --kernel 0x1000000,0x3400000 --la57 zp.bin\n")
        self.check("words of bootmem-linux", text_of(self.path("made", "linux")), "--pages 1G\n")
        said = text_of(self.path("words")).split("\n")
        self.check("words of QEMU", (said[:2], said[said.index("-initrd") + 1], said[said.index("-append") + 1]), (
            ["-m", "1G"], "mine", "console=ttyS0 memblock=debug ignore_loglevel panic=-1 efi=debug nokaslr"))

    def test_refused(self):
        """A boot that fails: status 1, one line, and no folder."""
        log, places = text_of(example("q35-2g-shortlog", "log")) + NEXT, places_of("q35-2g-shortlog")
        twice = places + [(places[0][0] + 8192, example("pc-128m", "zp.bin"))]
        for what, console, memory, part in (
            ("no log", "hello\n", places, "the kernel didn't count its memory in 0.5 seconds"),
            ("its head is lost", log[log.index("\n") + 1 :], places, "log_buf_len"),
            ("no zero page", log, [], "has 0 zero pages"),
            ("two zero pages", log, twice, "has 2 zero pages"),
            ("no memblock=debug", log.replace("MEMBLOCK", ""), places, "memblock=debug"),
            ("no brk", re.sub(".*setup_arch.*\n", "", log), places, "where the kernel's image lies"),
        ):
            self.lay(console, memory)
            status, out, err = self.run_tool("--timeout", "0.5" if what == "no log" else "60")
            self.check(f"boot-example, {what}", (status, out, err.count("\n"), os.path.exists(self.path("made"))), (1, "", 1, False))
            self.has(f"boot-example, {what}", err, part)
        write(self.path("fails"), "")
        status, _, err = self.run_tool()
        self.check("boot-example, QEMU fails", (status, err), (1, "boot-example: QEMU ended with status 1: qemu: no such board\n"))
        kernel = ["--kernel", self.path("kernel")]
        for bad in (kernel, [*kernel, "--output", "made"], ["--output", "made", "--", "qemu"]):
            self.check(f"boot-example {bad}", tool("boot-example", *bad)[:2], (2, ""))
        for qemu, part in ((self.path("none"), "QEMU is needed"), (self.path("qemu"), "it is the kernel")):
            status, _, err = tool("boot-example", "--kernel", "no", "--output", self.path("made"), "--", qemu)
            self.check(f"boot-example without {part}", (status, err.count("\n")), (1, 1))
            self.has("boot-example: what is missing", err, part)


if __name__ == "__main__":
    unittest.main()
