"""Shared by the tests of this folder: runs the program and the tools, makes inputs, finds the
machines of examples/, and counts and reports comparisons.

`tests/run.py PROGRAM` runs all of them; so does `python3 -m unittest discover -s tests`, with
the program that BOOTMEM_TESTED names, else ./bootmem. The program for boots of Linux 6.1 is the
one that BOOTMEM61 names, else ./bootmem61.
"""

import os
import struct
import subprocess
import sys
import tempfile
import unittest

sys.dont_write_bytecode = True
TOP = os.path.dirname(os.path.dirname(os.path.abspath(__file__)))
sys.path.insert(0, os.path.join(TOP, "tools"))
from bootmem_tools import inputs  # noqa: E402
from bootmem_tools.inputs import entry_bytes, sealed  # noqa: E402,F401  used by importing modules

PROGRAM = os.path.abspath(os.environ.get("BOOTMEM_TESTED") or os.path.join(TOP, "bootmem"))
# The program that the tools run for a boot of Linux 6.1.
PROGRAM61 = os.path.abspath(os.environ.get("BOOTMEM61") or os.path.join(TOP, "bootmem61"))
EXAMPLES = os.path.join(TOP, "examples")
MIB, GIB = 1 << 20, 1 << 30
# The machines of which examples/ has the command line.
BOOTS = sorted(name for name in os.listdir(EXAMPLES) if os.path.exists(os.path.join(EXAMPLES, name, "cmdline")))
RAM, RESERVED, ACPI, SOFT = inputs.RAM, inputs.RESERVED, inputs.ACPI, inputs.SOFT_RESERVED

# A machine of 128 MiB as QEMU describes it: MACHINE has only the RAM, PC also the reserved range at
# the end of RAM.
LOW = (0x0, 0x9FC00, RAM)
MAIN = (0x100000, 0x7EE0000, RAM)
MACHINE = [LOW, MAIN]
PC = MACHINE + [(0x7FE0000, 0x20000, RESERVED)]


class Counted:
    """The number of comparisons so far, and the last command that ran, which a failure prints."""

    checks = 0
    last = ""


class Case(unittest.TestCase):
    """A test with a folder of its own. Its comparisons are counted, and it goes on after one that
    fails."""

    def setUp(self):
        folder = tempfile.TemporaryDirectory()
        self.addCleanup(folder.cleanup)
        self.work = folder.name
        Counted.last = ""

    def check(self, what, got, wanted):
        """Compares two values. A failure prints the name, the last command that ran, and both values."""
        Counted.checks += 1
        if got != wanted:
            with self.subTest(what):
                raise self.failureException(f"{what}\n    ran    {Counted.last or 'nothing'}\n    got    {got!r}\n    wanted {wanted!r}")

    def has(self, what, text, part):
        """Checks that the text contains the part."""
        Counted.checks += 1
        if part not in text:
            with self.subTest(what):
                raise self.failureException(f"{what}\n    ran    {Counted.last or 'nothing'}\n    got    {text!r}\n    wanted {part!r} in it")

    def path(self, *names):
        """A path in the test's folder."""
        return os.path.join(self.work, *names)


def command_text(command, folder):
    """A command as one would type it in a shell, for the message of a failure."""
    return " ".join(repr(word) if " " in word or not word else word for word in command) + (f"   in {folder}" if folder else "")


def ran(command, given=b"", folder=None, variables=None):
    """Runs a command. Returns its status, standard output and standard error, as bytes."""
    Counted.last = command_text(command, folder)
    done = subprocess.run(command, input=given, stdout=subprocess.PIPE, stderr=subprocess.PIPE, cwd=folder,
                          env={**os.environ, **(variables or {})}, timeout=600, check=False)
    return done.returncode, done.stdout, done.stderr


def tool(name, *words, given="", folder=None, variables=None):
    """Runs a tool with the program under test. Returns status, standard output and standard error."""
    given = given.encode() if isinstance(given, str) else given
    status, out, err = ran([os.path.join(TOP, "tools", name), *words], given, folder,
                           {"BOOTMEM": PROGRAM, "BOOTMEM61": PROGRAM61, **(variables or {})})
    return status, out.decode(), err.decode()


def program(folder, *words, path=PROGRAM):
    """Runs the program. Returns its standard output, or an empty text if its status isn't 0."""
    status, out, _ = ran([path, *words], folder=folder)
    return out.decode() if status == 0 else ""


def run_over(files, words, program=PROGRAM):
    """Runs a program (unless one is given, the one under test) in a folder with these files. Returns
    status, standard output and standard error."""
    with tempfile.TemporaryDirectory() as folder:
        for name, held in files.items():
            write(os.path.join(folder, name), held)
        status, out, err = ran([program, *words], folder=folder)
    Counted.last += f" with {', '.join(f'{name} of {len(held)} bytes' for name, held in files.items())}"
    return status, out.decode(), err.decode()


def example(name, file=None):
    """The folder of a machine, or the path of one of its files."""
    return os.path.join(EXAMPLES, name, file) if file else os.path.join(EXAMPLES, name)


def has_file(name, file):
    """Whether a machine has the file."""
    return os.path.exists(example(name, file))


def machines():
    """The names of all machines of examples/, sorted."""
    return sorted(name for name in os.listdir(EXAMPLES) if os.path.isdir(example(name)))


def text_of(path):
    """The text of a file."""
    with open(path, encoding="utf-8") as file:
        return file.read()


def bytes_of(path):
    """The bytes of a file."""
    with open(path, "rb") as file:
        return file.read()


def write(path, data):
    """Writes bytes, or a text, to the file."""
    with open(path, "wb") as file:
        file.write(data.encode() if isinstance(data, str) else data)


def last_line(text):
    """The last line of a text, or an empty text."""
    return (text.splitlines() or [""])[-1]


def words_of(name):
    """The words with which the program runs over a machine."""
    return text_of(example(name, "words")).split()


def zero_page(entries, count=None, loader=0, image=0, size=0):
    """A zero page with these entries. It states `count` as their number, if that is given. Its initrd
    counts only if `loader` isn't 0."""
    page = bytearray(inputs.zero_page(entries, (image, size)))
    page[inputs.COUNT] = len(entries) if count is None else count
    page[inputs.LOADER_TYPE] = loader
    return bytes(page)


def extension(entries, kind=1, length=None):
    """An extension with these entries. It states this type, and its own length unless one is given."""
    body = entry_bytes(entries)
    return struct.pack("<QII", 0, kind, len(body) if length is None else length) + body


def unsealed(table):
    """The table with a checksum that is off by one: its bytes sum to 1."""
    return table[:9] + bytes([(table[9] + 1) % 256]) + table[10:]


def srat(*entries, revision=3, length=None):
    """An SRAT with these entries. It states its own length unless one is given."""
    body = b"".join(entries)
    stated = 48 + len(body) if length is None else length
    return sealed(b"SRAT" + struct.pack("<IBB", stated, revision, 0) + bytes(38) + body)


def memory_of(domain, base, size, flags=1, length=40):
    """An entry of the SRAT for a range of memory of this domain. The entry states `length` as its own."""
    entry = inputs.memory_affinity(base, size, domain, flags)
    return entry[:1] + bytes([length]) + entry[2:]


def encoded(rows):
    """These cases, with the text in the second field of each turned into bytes."""
    return [(name, text.encode("latin-1"), *rest) for name, text, *rest in rows]


def machine_files(entries):
    """The words and the files of a machine. Entries after the 128th go into an extension."""
    page, more = inputs.map_files(entries)
    return ([], {"zp": page}) if more is None else (["--e820ext", "ext"], {"zp": page, "ext": more})


def entries_of(data, count, place):
    """The entries of a zero page or an extension: base, size and type."""
    return [struct.unpack_from("<QQI", data, place + 20 * index) for index in range(count)]


def machine_of(size):
    """The entries of a virtual machine of this size. The firmware keeps some of its memory, and memory
    above 3 GiB goes on at 4 GiB."""
    low = min(size, 3 * GIB)
    entries = [(0, 0x9FC00, 1), (0x9FC00, 0x400, 2), (0xF0000, 0x10000, 2), (MIB, low - MIB - 0x21000, 1), (low - 0x21000, 0x21000, 2)]
    return entries + ([(4 * GIB, size - low, 1)] if size > low else [])


def use_library():
    """Whether there is a library: the one that BOOTMEM_LIB names, or else that of 'make lib', and then
    BOOTMEM_LIB is set to it."""
    path = os.environ.get("BOOTMEM_LIB") or os.path.join(TOP, "libbootmem.so")
    if os.path.exists(path):
        os.environ["BOOTMEM_LIB"] = path
    return os.path.exists(path)


def rows_of(text):
    """The rows of a table in a text: one row per line, with ` | ` between the fields. Escapes are those
    of Python. If a line ends with ` |`, the last field is empty."""
    lines = [line + " " if line.endswith(" |") else line for line in text.strip("\n").split("\n")]
    return [tuple(field.encode("latin-1").decode("unicode_escape") for field in line.split(" | ")) for line in lines]
