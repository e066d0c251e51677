"""Crash area, node data, grown tables and zones of each machine of examples/ are the kernel's: by
bootmem61 with the claims of the kernel's log, and by bootmem-linux without a log. No machine
differs. One that does needs a row of docs/KERNEL.md before it may be left out here."""

import collections
import os
import re
import unittest

from support import (
    GIB,
    MIB,
    PROGRAM,
    PROGRAM61,
    TOP,
    Case,
    example,
    has_file,
    machine_of,
    machines,
    program,
    ran,
    text_of,
    tool,
    words_of,
    write,
    zero_page,
)
from test_claims_from_log import claims_log_of
from test_linux import (
    boot_words,
    is_crash,
    is_node_data,
    kernel_claims,
    linux_words,
    part_of_sections,
)
from bootmem_tools import reports

# The machines on which the kernel's memory table grew. Reserved tables grew only after the sections.
GROWN = ["zp-holes129", "zp-holes260"]
# The number of zones that the debugger read, and of those that start or end elsewhere by bootmem.
ZONES = (164, 33)
ZONE = re.compile(r"^(Node \d+, zone \w+ start \d+ end \d+ present \d+)", re.MULTILINE)
HEAD = re.compile(r"^== memory\n(place 0x\w+ room \d+ records \d+)$", re.MULTILINE)
RANGE = re.compile(r"^ *\d+: (0x\w+)\.\.(0x\w+) (\S+)", re.MULTILINE)


def caller_of(words):
    """The kernel function that asked for an allocation of a replay."""
    if is_crash(words):
        return "reserve_crashkernel"
    return "sparse_init" if part_of_sections(words) else "some_function"


def log_of(name):
    """The log of a machine's boot. If the kernel's own wasn't kept, it has the lines of its claims,
    made from the replay."""
    return text_of(example(name, "log")) if has_file(name, "log") else claims_log_of(name, caller_of)


def area_of(text):
    """The size of the crash area in a report `crash`, in the form that KERNEL.md uses."""
    found = re.match(r"crash at (0x\w+)\.\.(0x\w+)\n", text)
    if not found:
        return text.removeprefix("crash ").rstrip()
    size = int(found[2], 16) + 1 - int(found[1], 16)
    return f"{size // GIB} GiB" if size % GIB == 0 else f"{size // MIB} MiB"


@unittest.skipUnless(os.access(PROGRAM61, os.X_OK), "there is no ./bootmem61 ('make bootmem61')")
class KernelAreas(Case):
    """Compares the reports of bootmem61 with what the kernel had."""

    def reports_of(self, name, names, *more):
        """The reports of bootmem61 for a machine, by their names."""
        words = ["--report", ",".join(names), *more, *boot_words(name)]
        status, out, err = ran([PROGRAM61, *words], folder=example(name))
        self.check(f"{name}: status", (status, err), (0, b""))
        return reports.split_reports(out.decode()) if status == 0 else {}

    def claims_of(self, name):
        """The words for the claims of a kernel's log before its crash area."""
        kernel = words_of(name)[words_of(name).index("--kernel") + 1]
        status, _, err = tool("claims-from-log", "--claims", self.path("early"), "--kernel", kernel,
                              given=log_of(name))
        self.check(f"{name}: claims-from-log", (status, err), (0, ""))
        return ["--claims", self.path("early")]

    def test_places(self):
        """With the claims of the kernel's log a boot has the kernel's crash area with its low part, and
        the kernel's node data. Each claim succeeds."""
        counts = collections.Counter()
        for name in machines():
            if not has_file(name, "replay/script"):
                continue
            told = self.reports_of(name, ["claims", "owners"], *self.claims_of(name))
            refused = [line for line in told["claims"] if not line.endswith(": done")]
            self.check(f"{name}: claims that are refused", refused, [])
            owned = [(int(first, 16), int(last, 16) + 1, owner)
                     for first, last, owner in RANGE.findall("\n".join(told["owners"]))]
            claims = list(kernel_claims(name))
            for what, asks, owners in (("crash area", is_crash, ("crash", "crash-low")),
                                       ("node data", is_node_data, ("node-data",))):
                theirs = sorted((first, end) for first, end, words, _ in claims if asks(words))
                ours = sorted((first, end) for first, end, owner in owned if owner in owners)
                self.check(f"{name}: {what}", ours, theirs)
                counts[what] += len(theirs)
        self.check("kernel areas: crash areas and node data", dict(counts), {"crash area": 20, "node data": 64})

    def linux_reports(self, name, names):
        """The reports of bootmem-linux for a machine, by their names, without a log."""
        words = [*linux_words(name), "--report", ",".join(names), *boot_words(name)]
        status, out, _ = tool("bootmem-linux", *words, folder=example(name))
        self.check(f"{name}: bootmem-linux", status, 0)
        return reports.split_reports(out) if status == 0 else {}

    def test_linux(self):
        """Without a log bootmem-linux has the kernel's grown memory tables and zones, and no line of its
        early claims is refused. (test_linux compares crash areas and node data.)"""
        grown, zones = [], 0
        for name in machines():
            if not has_file(name, "lists/kernel.txt"):
                continue
            told = self.linux_reports(name, ["claims", "tables", "zones"])
            refused = [line for line in told["claims"] if not re.search(": (done|at 0x.*)$", line)]
            self.check(f"{name}: lines that are refused", refused, [])
            kernel = text_of(example(name, "lists/kernel.txt"))
            head = HEAD.search(kernel)
            if head:
                self.check(f"{name}: the memory table", told["tables"][0], f"memory {head[1]}")
                grown.append(name)
            wanted = ZONE.findall(kernel.partition("== zones\n")[2].partition("== ")[0])
            ours = [zone for zone in ZONE.findall("\n".join(told["zones"])) if not zone.endswith("present 0")]
            self.check(f"{name}: zones", ours, wanted)
            zones += len(wanted)
        self.check("bootmem-linux: memory tables that grew, and zones", (grown, zones), (GROWN, ZONES[0]))

    def test_tables(self):
        """A memory table that grew has the place and the room that a debugger read from the kernel."""
        grown = []
        for name in machines():
            lists = text_of(example(name, "lists/kernel.txt")) if has_file(name, "lists/kernel.txt") else ""
            head = HEAD.search(lists)
            if head:
                told = self.reports_of(name, ["tables", "crash"], *self.claims_of(name))
                self.check(f"{name}: the memory table", told["tables"][0], f"memory {head[1]}")
                grown.append(name)
        self.check("kernel areas: memory tables that grew", grown, GROWN)

    def test_zones(self):
        """Start, end and present frames of each zone with memory are those that a debugger read from
        the kernel. On some machines those of `bootmem` differ."""
        zones = others = 0
        for name in machines():
            if not has_file(name, "lists/kernel.txt"):
                continue
            told = self.reports_of(name, ["zones", "crash"])["zones"]
            kernel = text_of(example(name, "lists/kernel.txt")).partition("== zones\n")[2]
            wanted = ZONE.findall(kernel.partition("== ")[0])
            # the debugger's list has no zone without memory
            ours = [zone for zone in ZONE.findall("\n".join(told)) if not zone.endswith("present 0")]
            self.check(f"{name}: zones", ours, wanted)
            zones += len(wanted)
            own = ZONE.findall(program(example(name), "--report", "zones", *boot_words(name)))
            others += sum(zone not in own for zone in wanted)
        self.check("kernel areas: zones, and those that bootmem has otherwise", (zones, others), ZONES)

    def test_sizes(self):
        """KERNEL.md has the sizes that the kernel and `bootmem` pick from the ranges of two lines.
        bootmem61 picks the kernel's, and bootmem those of `bootmem`."""
        page = text_of(os.path.join(TOP, "docs", "KERNEL.md"))
        lines = re.findall(r"`((?:\d\w+-\w*:\w+,?){3,})`", page)
        self.check("lines of KERNEL.md", len(lines), 2)
        rows = re.findall(r"^\| (\d+) ([MG])iB \| ([^|]+) \| ([^|]+) \| ([^|]+) \| ([^|]+) \|$", page, re.MULTILINE)
        self.check("rows of KERNEL.md", len(rows), 7)
        for number, unit, *cells in rows:
            write(self.path("zp"), zero_page(machine_of(int(number) * {"M": MIB, "G": GIB}[unit])))
            for column, cell in enumerate(cells):
                write(self.path("line"), f"crashkernel={lines[column // 2]}")
                binary = PROGRAM61 if column % 2 == 0 else PROGRAM
                _, out, _ = ran([binary, "--report", "crash", "--cmdline", "line", "zp"], folder=self.work)
                self.check(f"{number} {unit}iB, column {column}", area_of(out.decode()), cell.strip("* "))


if __name__ == "__main__":
    unittest.main()
