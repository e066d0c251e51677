#!/usr/bin/env python3
"""What a call of the journal, and an edit of the reserved table in its bytes, cost at 1,000 and at 10,000 runs or records.

usage: bench/memblock.py [ROUNDS]

It proves and builds bench/journal.main.txt and bench/tables.main.txt as programs over a copy of the crates, in a folder of its own,
and prints the microseconds of one call: the least time of several runs with ROUNDS rounds, two calls each, less the least time of
runs without a round. `half`: a claim or a free that moves half of the runs; `none`: one that moves none; `owns`: the test of a range's owner.
"""
import os
import re
import shutil
import subprocess
import sys
import tempfile
import time

TOP = os.path.dirname(os.path.dirname(os.path.abspath(__file__)))
CRATES = ("bm_base", "address_runs", "run_edits", "memblock_model", "boot_journal", "phys_store", "memblock_ranges")
PROGRAMS = (("journal", "boot_journal bm_base", ("half", "none", "owns")),
            ("tables", "memblock_ranges memblock_model bm_base", ("half", "none")))


def write_crates(folder, crates, programs):
    """Copies the crates to the folder, and adds the programs that use them. Each program has a name, its libraries, and for each of
    its files except src/main.rt the path and the source in bench/."""
    for crate in crates:
        shutil.copytree(os.path.join(TOP, "crates", crate), os.path.join(folder, "crates", crate),
                        ignore=shutil.ignore_patterns("out", "must-fail"))
    with open(os.path.join(TOP, "crates.txt")) as file:
        lines = [line for line in file if line.split(":")[0] in crates]
    for name, uses, files in programs:
        for path, source in (("src/main.rt", name + ".main.txt"), *files):
            here = os.path.join(folder, "crates", "bench_" + name, path)
            os.makedirs(os.path.dirname(here))
            shutil.copy(os.path.join(TOP, "bench", source), here)
        lines.append("bench_%s: %s\n" % (name, uses))
    with open(os.path.join(folder, "crates.txt"), "w") as file:
        file.writelines(lines)


def build(folder, name, kind):
    return build_from(folder, name, kind)[0]


def build_from(folder, name, kind):
    """Proves and builds the program; returns its path, and the files that it was linked from."""
    here = os.path.join(folder, "crates", "bench_" + name)
    done = subprocess.run(["rt", "run", "--", kind, "2", "1"], cwd=here, capture_output=True, text=True)
    if done.returncode != 0:
        sys.exit("bench: %s isn't built\n" % name + done.stdout[-3000:] + done.stderr[-3000:])
    files = re.search("^linked .* files=(.*)$", done.stdout + done.stderr, re.MULTILINE).group(1)
    return os.path.join(here, "out", "bench_" + name), [os.path.join(here, file) for file in files.split(",")]


def least_time(words, runs=7):
    least = None
    for _ in range(runs):
        start = time.perf_counter()
        done = subprocess.run(words, stdout=subprocess.DEVNULL)
        took = time.perf_counter() - start
        if done.returncode != 0:
            sys.exit("bench: status %d of %s" % (done.returncode, " ".join(words[1:])))
        least = took if least is None else min(least, took)
    return least


def main():
    rounds = int(sys.argv[1]) if len(sys.argv) > 1 else 10000
    with tempfile.TemporaryDirectory() as folder:
        write_crates(folder, CRATES, [(name, uses, ()) for name, uses, _ in PROGRAMS])
        for name, _, kinds in PROGRAMS:
            program = build(folder, name, kinds[0])
            for kind in kinds:
                calls = []
                for count in (1000, 10000):
                    none = least_time([program, kind, str(count), "0"])
                    some = least_time([program, kind, str(count), str(rounds)])
                    calls.append(max(some - none, 1e-9) / (2 * rounds) * 1e6)
                print("%-7s %-4s %.2f us at 1,000, %.2f us at 10,000: 1 : %.1f"
                      % (name, kind, calls[0], calls[1], calls[1] / calls[0]))


if __name__ == "__main__":
    main()
