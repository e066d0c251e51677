#!/usr/bin/env python3
"""test_free_lists.py [PROGRAM]: compares what a debugger read from real kernels at handover
(examples/*/lists/kernel.txt) with the program's reports: every block by node, zone, order and
address, every record of both tables, the zones, and the places of allocations in the kernel's log.
Prints how many items were compared. Every difference needs a row of KERNEL.md."""

import contextlib
import io
import os
import re
import shutil
import subprocess
import sys
import tempfile
import unittest
from typing import Callable, Dict, List, NamedTuple, Tuple, Union

TOP = os.path.dirname(os.path.dirname(os.path.abspath(__file__)))
sys.dont_write_bytecode = True
sys.path.insert(0, os.path.join(TOP, "tools"))
from bootmem_tools import free_lists, kernel_lists as lists, tool  # noqa: E402
from support import Counted  # noqa: E402

EXAMPLES = os.path.join(TOP, "examples")
MACHINES = sorted(
    name
    for name in os.listdir(EXAMPLES)
    if os.path.exists(os.path.join(EXAMPLES, name, "lists", "kernel.txt"))
)
# Machines whose folder has the log of another boot, of a kernel whose line lacked LATER.
LOGGED = ("ovmf-4g-numa2", "pc-1g-crashfixed", "q35-8g-numa2")
LATER = " early_page_ext"
PROGRAM = os.path.abspath(os.environ.get("BOOTMEM_TESTED") or os.path.join(TOP, "bootmem"))


class Boot(NamedTuple):
    """The input of one comparison: the text of `kernel.txt`, and the program's reports for both
    boots."""

    text: str
    told: Dict[str, List[str]]
    room: List[Tuple[int, int, int]]
    own: Dict[str, List[str]]
    records: List[lists.Record]

    def compare(self, text: str) -> List[lists.Result]:
        """The result of the comparison if `kernel.txt` has this text."""
        kernel = lists.parse_kernel(text)
        return lists.compare_boot(kernel, self.told, self.room) + lists.compare_machine(
            kernel, self.own, self.records
        )

    def refused(self, text: str) -> List[str]:
        """The subjects in which a `kernel.txt` with this text differs without a row. None of
        these kernels had used a deferred block when it was read, so one that counts as used
        differs, too."""
        return [
            result.subject
            for result in self.compare(text)
            if not result.is_explained() or result.row == lists.DEFERRED_ROW and result.known
        ]


BOOTS: Dict[str, Boot] = {}


def boot_of(name: str) -> Boot:
    """The runs of a machine, each made once."""
    if name not in BOOTS:
        run = lists.program_runner(PROGRAM)
        machine = os.path.join(EXAMPLES, name)
        folder = os.path.join(machine, "lists")
        text: str = tool.read_text(os.path.join(folder, "kernel.txt"))
        top = lists.top_of(lists.parse_kernel(text))
        BOOTS[name] = Boot(
            text,
            run(lists.BOOT_REPORTS, lists.words_in(folder), folder),
            lists.memory_above(run, folder, top),
            run(lists.MACHINE_REPORTS, lists.words_in(machine), machine),
            lists.read_records(run, machine),
        )
    return BOOTS[name]


# Replacements for a match.
Change = Union[str, Callable[["re.Match[str]"], str]]


def raised(text: str, by: int) -> str:
    """An address as the reports print it, this many bytes higher."""
    return f"0x{int(text, 16) + by:016x}"


BLOCK = r"(node \d+ zone )(\w+)( order )(\d+)( \w+ )(0x\w{16})"
RECORD = r"(0x\w{16})\.\.(0x\w{16}) node (\d+) flags (0x\w+)"
# Faults in kernel.txt: the machine, the fault, the section, a pattern, the replacement for its first
# match, and what the comparison then reports.
PLANTED: Tuple[Tuple[str, str, str, str, Change, str], ...] = (
    (
        "pc-128m",
        "a block's address",
        "blocks",
        BLOCK,
        lambda m: m[1] + m[2] + m[3] + m[4] + m[5] + raised(m[6], 0x1000),
        "blocks",
    ),
    (
        "pc-128m",
        "a block's order",
        "blocks",
        BLOCK,
        lambda m: m[1] + m[2] + m[3] + str(int(m[4]) + 1) + m[5] + m[6],
        "blocks",
    ),
    (
        "pc-128m",
        "a block's zone",
        "blocks",
        BLOCK,
        lambda m: m[1] + "Normal" + m[3] + m[4] + m[5] + m[6],
        "blocks",
    ),
    ("q35-2g-numa2", "a block's node", "blocks", r"node 0(.*DMA32.*)", r"node 1\1", "blocks"),
    ("pc-128m", "a block is missing", "blocks", BLOCK + r"\n", "", "blocks"),
    (
        "pc-128m",
        "the step of several blocks",
        "blocks",
        r"step 0x400000",
        "step 0x800000",
        "blocks",
    ),
    (
        "many1",
        "two blocks of a list change places",
        "blocks",
        r"(.*) (0x\w{16})\n\1 (0x\w{16})\n",
        r"\1 \3\n\1 \2\n",
        "lists that ascend",
    ),
    (
        "deferred-q35-1g",
        "a late block's address",
        "late",
        BLOCK,
        lambda m: m[1] + m[2] + m[3] + m[4] + m[5] + raised(m[6], 0x400000),
        "late blocks",
    ),
    ("deferred-q35-1g", "a late block is missing", "late", BLOCK + r"\.\..*\n", "", "late blocks"),
    (
        "deferred-q35-1g",
        "the first deferred page",
        "deferred",
        r"0x\w{16}",
        lambda m: raised(m[0], -0x8000000),
        "blocks",
    ),
    (
        "pc-128m",
        "present frames",
        "zones",
        r"present (\d+)",
        lambda m: f"present {int(m[1]) - 1}",
        "zones",
    ),
    (
        "pc-128m",
        "managed frames",
        "zones",
        r"managed (\d+)",
        lambda m: f"managed {int(m[1]) + 1}",
        "zones",
    ),
    (
        "pc-128m",
        "a zone's start",
        "zones",
        r"start (\d+)",
        lambda m: f"start {int(m[1]) + 1}",
        "spans of zones",
    ),
    (
        "pc-128m",
        "a zone's end",
        "zones",
        r"end (\d+)",
        lambda m: f"end {int(m[1]) - 1}",
        "spans of zones",
    ),
    (
        "pc-128m",
        "a memory record's end",
        "memory",
        RECORD,
        lambda m: f"{m[1]}..{raised(m[2], -0x1000)} node {m[3]} flags {m[4]}",
        "memory records",
    ),
    (
        "q35-2g-numa2",
        "a memory record's node",
        "memory",
        r"node 0",
        "node 1",
        "memory records with node and flags",
    ),
    (
        "pc-128m",
        "a memory record's flags",
        "memory",
        r"flags 0x0",
        "flags 0x1",
        "memory records with node and flags",
    ),
    (
        "pc-128m",
        "a reserved record's end",
        "reserved",
        RECORD,
        lambda m: f"{m[1]}..{raised(m[2], -1)} node {m[3]} flags {m[4]}",
        "reserved records",
    ),
    (
        "pc-128m",
        "a reserved record in two of one node",
        "reserved",
        RECORD,
        lambda m: f"{m[1]}..{raised(m[1], 0xfff)} node {m[3]} flags {m[4]}\n"
        f"{raised(m[1], 0x1000)}..{m[2]} node {m[3]} flags {m[4]}",
        "reserved records",
    ),
    (
        "pc-128m",
        "the reserved table's room",
        "reserved",
        r"room 128",
        "room 256",
        "heads of tables",
    ),
    (
        "zp-holes260",
        "the reserved table's place",
        "reserved",
        r"place (0x\w+)",
        lambda m: "place " + raised(m[1], 0x1000),
        "heads of tables",
    ),
    (
        "zp-holes260",
        "the memory table's place",
        "memory",
        r"place (0x\w+)",
        lambda m: "place " + raised(m[1], 0x1000),
        "heads of tables",
    ),
    (
        "pc-128m",
        "an allocation's place",
        "script",
        r"at (0x\w+)",
        lambda m: "at " + raised(m[1], 0x1000),
        "answers",
    ),
    ("pc-128m", "an allocation's answer", "script", r"at 0x\w+", "no gap", "answers"),
)


def recount(part: str) -> str:
    """The section of a table, with the number of its records corrected."""
    return re.sub(r"records \d+", f"records {len(part.splitlines()) - 2}", part, count=1)


def planted(text: str, section: str, pattern: str, change: Change) -> str:
    """The text, with the first match of the pattern in a section replaced."""
    start = text.index(f"== {section}\n")
    end = text.find("\n== ", start) + 1 or len(text)
    part = re.sub(pattern, change, text[start:end], count=1)
    if section in ("memory", "reserved"):
        part = recount(part)
    return text[:start] + part + text[end:]


class FreeLists(unittest.TestCase):
    """The kernels' lists and tables, and faulty ones."""

    counts: Dict[str, int] = {}
    known: Dict[str, int] = {}

    def test_each_machine(self) -> None:
        """The program agrees with the kernel, except for differences that have a row of KERNEL.md."""
        for name in MACHINES:
            with self.subTest(machine=name):
                boot = boot_of(name)
                refused = boot.refused(boot.text)
                for result in boot.compare(boot.text):
                    self.assertFalse(result.subject in refused, free_lists.result_text(result))
                    self.counts[result.subject] = self.counts.get(result.subject, 0) + result.equal
                    Counted.checks += result.equal
                    if result.known:
                        self.known[result.row] = self.known.get(result.row, 0) + result.known

    def test_rows(self) -> None:
        """Each row that explains a difference is in KERNEL.md, in the first column of its table."""
        text = tool.read_text(os.path.join(TOP, "docs", "KERNEL.md"))
        for row in (lists.SPLIT_ROW, lists.SPAN_ROW, lists.DEFERRED_ROW):
            self.assertTrue(
                re.search(rf"(?m)^\| [^|]*{re.escape(row)}", text), f"KERNEL.md has no row {row}"
            )

    def test_wrong_block_in_each_file(self) -> None:
        """In the file of each machine, a block that lies one frame higher is found."""
        for name in MACHINES:
            with self.subTest(machine=name):
                boot = boot_of(name)
                text = planted(
                    boot.text,
                    "blocks",
                    BLOCK,
                    lambda m: m[1] + m[2] + m[3] + m[4] + m[5] + raised(m[6], 0x1000),
                )
                self.assertIn("blocks", boot.refused(text))

    def test_planted(self) -> None:
        """Each kind of fault is found, and reported by its name."""
        for name, what, section, pattern, change, subject in PLANTED:
            with self.subTest(machine=name, planted=what):
                boot = boot_of(name)
                text = planted(boot.text, section, pattern, change)
                self.assertNotEqual(text, boot.text)
                self.assertIn(subject, boot.refused(text))

    def test_copy(self) -> None:
        """The command finds no difference in a copy of a folder. It reports a block that is missing
        there, with status 1."""
        with tempfile.TemporaryDirectory() as work:
            folder = os.path.join(work, "lists")
            shutil.copytree(os.path.join(EXAMPLES, "pc-128m", "lists"), folder)
            path = os.path.join(folder, "kernel.txt")
            wrong = planted(tool.read_text(path), "blocks", BLOCK + r"\n", "")
            for text, status, part in (
                ("", 0, ": 34 blocks agree\n"),
                (wrong, 1, ": 33 blocks agree, 1 and 0 differ: bootmem alone has node 0 "),
            ):
                if text:
                    with open(path, "w", encoding="ascii") as file:
                        file.write(text)
                said = io.StringIO()
                with contextlib.redirect_stdout(said):
                    self.assertEqual(
                        free_lists.main(["--compare", "--program", PROGRAM, folder]), status
                    )
                self.assertIn(part, said.getvalue())

    def test_needs(self) -> None:
        """Without QEMU, gdb or the kernel's symbols the command prints one line that names what is
        missing."""
        command = os.path.join(TOP, "tools", "free-lists")
        with tempfile.TemporaryDirectory() as work:
            for name, text in (("qemu", ""), ("gdb", ""), ("python", "")):
                with open(os.path.join(work, name), "w", encoding="ascii") as file:
                    file.write(f"#!/bin/sh\n{text}\n")
                os.chmod(os.path.join(work, name), 0o755)
            os.symlink(sys.executable, os.path.join(work, "python3"))
            words = [
                "--vmlinux",
                "none",
                "--output",
                os.path.join(work, "made"),
                "--program",
                PROGRAM,
                "--",
            ]
            for qemu, gone, part in (
                ("no-qemu", "", "no-qemu: no program that can be run; QEMU is needed"),
                ("qemu", "gdb", "gdb is needed"),
                ("qemu", "", "gdb is there, but has no Python"),
            ):
                if gone:
                    os.rename(os.path.join(work, gone), os.path.join(work, "gone"))
                done = subprocess.run(
                    [sys.executable, command, *words, qemu],
                    stdin=subprocess.DEVNULL,
                    stdout=subprocess.PIPE,
                    stderr=subprocess.PIPE,
                    env={**os.environ, "PATH": work},
                    check=False,
                )
                if gone:
                    os.rename(os.path.join(work, "gone"), os.path.join(work, gone))
                self.assertEqual(
                    (done.returncode, done.stdout, done.stderr.count(b"\n")), (1, b"", 1)
                )
                self.assertIn(part, done.stderr.decode())
                self.assertFalse(os.path.exists(os.path.join(work, "made")))

    def test_made(self) -> None:
        """The inputs that are made from a kernel's tables and a log are those of the folder, except for
        the copies of the command line, which was longer, and the claims below them."""
        for name in LOGGED:
            with self.subTest(machine=name):
                boot, folder = boot_of(name), os.path.join(EXAMPLES, name)
                lines = tool.read_text(os.path.join(folder, "log")).splitlines()
                kernel = lists.parse_kernel(boot.text)
                made = free_lists.make_machine(kernel, lines, None, PROGRAM).files
                for file in sorted(made.keys() - {"script", "kernel.txt"}):
                    path = os.path.join(folder, "lists", file)
                    self.assertEqual(made[file], tool.read_bytes(path, tool.TEXT._replace(is_text=False)))
                script = tool.read_text(os.path.join(folder, "lists", "script")).splitlines()
                pairs = list(zip(script, made["script"].decode().splitlines()))
                other = [pair for pair in pairs if pair[0] != pair[1]]
                copies = [pair for pair in other if pair[0].startswith("alloc ")]
                self.assertEqual((len(pairs), len(copies), len(other) - len(copies) <= 1),
                                 (len(script), 2, True))
                for theirs, ours in copies:
                    self.assertEqual(int(theirs.split()[2]), int(ours.split()[2]) + len(LATER))

    def test_texts(self) -> None:
        """Each file is the same text after it was read and written again."""
        for name in MACHINES:
            text = boot_of(name).text
            self.assertEqual(lists.kernel_text(lists.parse_kernel(text)), text, name)

    def test_documents(self) -> None:
        """README, KERNEL.md and HEADLINE.md have the numbers of machines, blocks and records
        that are compared."""
        results = [
            result for name in MACHINES for result in boot_of(name).compare(boot_of(name).text)
        ]
        blocks = sum(
            result.equal for result in results if result.subject in ("blocks", "late blocks")
        )
        records = sum(
            result.equal + result.known
            for result in results
            if result.subject in ("memory records", "reserved records")
        )
        for path in ("README.md", "docs/KERNEL.md", "docs/HEADLINE.md"):
            text = tool.read_text(os.path.join(TOP, path))
            for part in (
                f"{len(MACHINES)} machines",
                f"{blocks:,} blocks",
                f"{records:,} records",
            ):
                self.assertTrue(part in text, f"{path} doesn't have '{part}'")

    @classmethod
    def tearDownClass(cls) -> None:
        """Prints how many items were compared, and how many differ as a row of KERNEL.md says."""
        if cls.counts:
            print(
                f"{len(MACHINES)} kernels at handover agree in "
                + ", ".join(f"{count:,} {subject}" for subject, count in cls.counts.items())
                + "; by rows of KERNEL.md differ "
                + ", ".join(f"{count:,} ({row})" for row, count in sorted(cls.known.items())),
                flush=True,
            )


def main() -> int:
    """Runs the tests over the program that the first word names."""
    global PROGRAM
    if len(sys.argv) > 1 and os.path.exists(sys.argv[1]):
        PROGRAM = os.path.abspath(sys.argv.pop(1))
    if not os.access(PROGRAM, os.X_OK):
        print(
            f"test_free_lists.py: there is no program {PROGRAM}: 'make bootmem' builds it",
            file=sys.stderr,
        )
        return 2
    return 0 if unittest.main(exit=False).result.wasSuccessful() else 1


if __name__ == "__main__":
    sys.exit(main())
