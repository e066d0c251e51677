#!/usr/bin/env python3
"""What a search costs over 1,500 and over 8,000 claimed pages with a page between them, all in one record of memory.

usage: bench/find.py

It proves and builds bench/find.main.txt as a program over a copy of the crates, in a folder of its own, and prints the nanoseconds of
one call: the least time of several runs, less the least time of runs without a round. `first`: a page, which fits the gap right below
memory's end; `last`: two pages, which fit only below all claims; `low`: a page, searched bottom up, which fits the first
gap; `none`: two pages from the first claim up, which fit no gap; `walk`: one step of `next_free` or `prev_free` in a walk over all runs
of unclaimed memory. The program is linked four times, its code 16 bytes further on each time, and the fastest counts: the alignment of a
short loop changes its time by up to a third, whatever the search does.
"""
import os
import subprocess
import tempfile

from memblock import build_from, least_time, write_crates

CRATES = ("bm_base", "address_runs", "run_edits", "memblock_model", "phys_store", "memblock_ranges", "memblock_find")
ROUNDS = {"first": 3000000, "last": 3000, "low": 3000000, "none": 3000, "walk": 1000}


def placed(folder):
    """Links the program with its code at four offsets; returns the paths."""
    program, files = build_from(folder, "find", "first")
    programs = []
    for place in range(4):
        room = os.path.join(folder, "room%d.s" % place)
        with open(room, "w") as file:
            file.write('.text\n.fill %d, 1, 0x90\n.section .note.GNU-stack, "", @progbits\n' % (16 * place))
        programs.append(program + str(place))
        subprocess.run(["gcc", "-o", programs[-1], room] + files, check=True)
    return programs


def main():
    with tempfile.TemporaryDirectory() as folder:
        write_crates(folder, CRATES, [("find", "memblock_find memblock_ranges memblock_model bm_base",
                                       [("proofs/search/Answers.antt", "find.answers.txt")])])
        programs = placed(folder)
        for kind, rounds in ROUNDS.items():
            costs = []
            for count in (1500, 8000):
                calls = rounds * (2 * count if kind == "walk" else 1)
                none = min(least_time([program, kind, str(count), "0"]) for program in programs)
                some = min(least_time([program, kind, str(count), str(rounds)]) for program in programs)
                costs.append(max(some - none, 1e-9) / calls * 1e9)
            print("%-5s %.0f ns over 1,500, %.0f ns over 8,000: 1 : %.1f" % (kind, costs[0], costs[1], costs[1] / costs[0]))


if __name__ == "__main__":
    main()
