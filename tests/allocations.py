#!/usr/bin/env python3
"""allocations.py LIBRARY PROGRAM MOST: runs PROGRAM with LIBRARY preloaded, which makes one allocation fail, for at most MOST allocations
of each case. allocations.sh builds LIBRARY and calls this script."""
import os
import subprocess
import sys
import tempfile
from concurrent.futures import ThreadPoolExecutor

sys.dont_write_bytecode = True

from fault_tables.efi import KINDS, efi, in_a_row
from fault_tables.slit import slit
from test_growth import ABOVE, HERE, LOW, MAIN, PC, high, reserves, soft
from support import RAM, machine_files
from test_mirrored import FULL, NODES, RESERVES

TOP = os.path.dirname(os.path.dirname(os.path.abspath(__file__)))
EXAMPLES = os.path.join(TOP, "examples")
SILENT = (7, b"", b"")
SECONDS = 60
PAGES = b"pages 1 0 0 DMA\npages 2 10 1 DMA32\nnear 3 4 1\ngive 2\ngive 2\npages 1 0 0 DMA\npages 4 10 7 Normal\n"


def example(name, words):
    """A case in the folder of an example: the words are those of the command line."""
    return os.path.join(EXAMPLES, name), words.split(), {}


def machine(entries, script, reports, *more, **held):
    """A case in a folder of its own: the words, and the files with their bytes. `more` are further words, which may name the files in `held`."""
    words, files = machine_files(entries)
    files |= {"script": script.encode(), **held}
    return None, ["--script", "script", "--report", reports, *words, *more, "zp"], files


CASES = [
    ("map options", example("pc-1g-memmapmix", "--report map --cmdline cmdline zp.bin")),
    ("an extension", example("zp-holes129", "--report map --cmdline cmdline --e820ext e820ext.bin zp.bin")),
    ("a claim makes the other table grow", machine([LOW, MAIN] + soft(126) + high(127), "", "journal,tables")),
    ("a place and then none", machine([(0x11000, 0x2000, RAM), MAIN] + soft(126) + high(127), "", "journal")),
    ("a release makes the other table grow", machine([LOW, MAIN] + soft(124) + high(255), "", "journal,tables")),
    ("that growth is refused", machine([(0x11000, 0x5000, RAM), MAIN] + soft(124) + high(255), "", "journal,tables")),
    ("the script makes a table grow twice", machine(PC, reserves(1, 260, HERE) + "free 7\npeek 0x7fb0000 64\n", "script,tables")),
    ("a mirror makes the memory table grow", machine(FULL + high(126), "", "journal,tables", "--mirror", "64M,16M:72M,16M")),
    ("both tables grow from below, where memory is mirrored", machine(
        FULL + high(127), RESERVES, "script,tables", "--bottom-up", "--mirror", "0x90000,0x8000:64M,16M")),
    ("addresses of 52 bits, pages, lists of zones and EFI's map", machine(
        PC, "", "map,options,memory,journal,pages,pagesinfo,zonelists,sections", "--la57", "--pages", "pages", "--srat", "srat",
        "--slit", "slit", "--cmdline", "cmdline", "--efi", "efi", pages=PAGES, srat=NODES, slit=slit(2, [10, 20, 20, 10]), cmdline=b"add_efi_memmap",
        efi=efi(*in_a_row(KINDS)))),
    ("nodes, sections, blocks and a script", example(
        "q35-8g-numa2", "--report map,options,nodes,memory,reserved,owners,journal,crash,sections,zones,script,tables,buddyinfo,blocks,"
        "summary --script replay/script --cmdline cmdline --srat srat.bin --kernel 0x1000000,0x3400000 zp.bin")),
]

# The reports of a run with early claims: the answers to both files, the journal and the places of both tables.
CLAIMED = "claims,script,journal,tables,reserved"


def with_claims(entries, claims, script, *more, **held):
    """A case with a file of early claims."""
    return machine(entries, script, CLAIMED, "--claims", "claims", *more, claims=claims.encode(), **held)


# These cases need bootmem61.
CLAIM_CASES = [
    ("claims that are carried out and refused", with_claims(
        PC, "alloc 1 64K 4K max 16M\nreserve 2 0x4000000 1M\nalloc 1 4K 4K\nfree 9\nalloc 3 2G 4K\nalloc 4 4K 4K node 1 exact\n", "")),
    ("a line of the script frees a claim", with_claims(
        PC, "alloc 1 64K 4K max 16M\nalloc 2 8K 4K\nfill 2 0xa5\n", "free 1\ntrim 2 4K\nalloc 3 64K 4K max 16M\nfree 9\n")),
    ("the claims make the reserved table grow, and memory gets nodes", with_claims(
        PC, reserves(1, 130, HERE), "free 7\nfree 130\nreserve 7 0x5000000 4K\n", "--srat", "srat", srat=NODES)),
    ("the claims make it grow twice, from below", with_claims(PC, reserves(1, 260, HERE) + "free 7\n", "", "--bottom-up")),
    ("nodes make the memory table grow after the claims", with_claims(
        PC + high(126), reserves(1, 130, HERE), "free 7\n", "--srat", "srat", srat=NODES)),
    ("no place is left for the table that the claims make grow", with_claims(
        PC, "reserve 9001 0x100000 0xF00000\nreserve 9002 0x3000000 0x4FE0000\n" + reserves(1, 130, ABOVE), "")),
]


class Failing:
    """Runs of one program in one folder, in each of which the allocation with a given number fails."""

    def __init__(self, library, program, folder, words):
        self.library, self.program, self.folder, self.words = library, program, folder, words

    def run(self, number):
        """The status and both outputs of a run in which the allocation with this number fails. With 0 none fails."""
        with tempfile.NamedTemporaryFile() as count:
            surroundings = {**os.environ, "LD_PRELOAD": self.library, "FAIL_ALLOC": str(number), "FAIL_ALLOC_COUNT": count.name}
            done = subprocess.run([self.program, *self.words], cwd=self.folder, env=surroundings, capture_output=True, timeout=SECONDS)
            self.total = int(count.read() or 0) if number == 0 else self.total
        return done.returncode, done.stdout, done.stderr


def numbers(total, most):
    """The numbers from 1 to `total`; if these are more than `most`, about `most` of them, evenly spaced."""
    if total <= most:
        return range(1, total + 1)
    return sorted({1 + place * total // most for place in range(most)} | {total})


def name_of(program):
    """The name with which the program begins its lines on standard error."""
    return subprocess.run([program], capture_output=True, check=False, timeout=SECONDS).stderr.split(b":")[0]


def told(end):
    status, out, line = end
    return f"status {status}, {len(out)} bytes, {line!r}"


def differences(name, failing, most, line):
    """How many runs ended as they should, and how many didn't. `line` is what a run that is out of memory prints."""
    plain = failing.run(0)
    if failing.total == 0 or plain[0] not in (0, 6):
        print(f"{name}: {failing.total} allocations seen, {told(plain)}")
        return 0, 1
    tried = numbers(failing.total, most)
    with ThreadPoolExecutor(os.cpu_count()) as pool:
        ends = list(pool.map(failing.run, tried))
    wanting = [number for number, end in zip(tried, ends) if end == (7, b"", line)]
    first = min(wanting, default=failing.total + 1)
    silent = [number for number, end in zip(tried, ends) if end == SILENT and number < first]
    same = [number for number, end in zip(tried, ends) if end == plain]
    right = {*wanting, *silent, *same}
    for number, end in zip(tried, ends):
        if number not in right:
            print(f"{name}: allocation {number}: {told(end)}")
    print(f"{name}: {failing.total} allocations, {len(tried)} tried: {len(wanting)} answers 7 with the line, the first {len(silent)} "
          f"without, {len(same)} as where none fails")
    return len(right), len(tried) - len(right)


def main():
    library, program, most = os.path.abspath(sys.argv[1]), os.path.abspath(sys.argv[2]), int(sys.argv[3])
    if not os.access(program, os.X_OK):
        print(f"allocations.sh: there is no program {program}: 'make bootmem' builds it", file=sys.stderr)
        return 2
    own = name_of(program)
    passed = failed = 0
    for name, (folder, words, files) in CASES + (CLAIM_CASES if own == b"bootmem61" else []):
        with tempfile.TemporaryDirectory() as made:
            for file, held in files.items():
                with open(os.path.join(made, file), "wb") as written:
                    written.write(held)
            right, wrong = differences(name, Failing(library, program, folder or made, words), most, own + b": out of memory\n")
        passed += right
        failed += wrong
    print(f"{passed} passed, {failed} failed")
    return 1 if failed else 0


if __name__ == "__main__":
    sys.exit(main())
