#!/usr/bin/env python3
"""What the lines of a page script cost: 1,000 and 10,000 allocations and frees in random order, over 64 GiB of 100,000 runs of free frames and over 16 TiB
in one run.

usage: bench/pages.py

It proves and builds bench/pages.main.txt as a program over a copy of the crates, in a folder of its own, and prints milliseconds: the least
time of several runs with that many lines, less the least time of runs without lines; and the ratio of 10,000 lines to 1,000.
"""
import tempfile

from lists import CRATES
from memblock import build, least_time, write_crates

MACHINES = (("many", 100000, "64 GiB in 100,000 runs"), ("one", 1, "16 TiB in one run"))


def main():
    with tempfile.TemporaryDirectory() as folder:
        write_crates(folder, CRATES, [("pages", "slit_zonelists page_alloc buddy_handover address_runs bm_base",
                                       [("proofs/machine/Invariants.antt", "pages.invariants.txt")])])
        program = build(folder, "pages", "many")
        for kind, runs, name in MACHINES:
            none, some, many = (least_time([program, kind, str(runs), str(lines)]) for lines in (0, 1000, 10000))
            print("%-23s 1,000 lines %.1f ms, 10,000 lines %.1f ms: 1 : %.1f"
                  % (name, (some - none) * 1e3, (many - none) * 1e3, (many - none) / max(some - none, 1e-4)))


if __name__ == "__main__":
    main()
