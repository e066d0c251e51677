#!/usr/bin/env python3
"""What a call of memblock costs at 1,000 and at 10,000 claimed pages with a page between them.

usage: bench/calls.py

It proves and builds bench/calls.main.txt as a program over a copy of the crates, in a folder of its own, which takes some minutes, and
prints the microseconds of one call: the least time of several runs, less the least time of runs without a round. `claims`: that many
pages are claimed in scattered order, starting with a fresh machine, so that the reserved table doubles several times; `allocs`: that many
are allocated top down, each below a maximum one page below the last; `half`: the page in the middle is freed and claimed; `first`: a
page is allocated right below memory's end and freed; `last`: two pages are allocated and freed that fit only below all claims.
"""
import tempfile

from memblock import CRATES, build, least_time, write_crates

# The number of calls in one round, by the number of pages, and the number of calls in all rounds.
KINDS = {"claims": (lambda count: count, 200000), "allocs": (lambda count: count, 200000), "half": (lambda count: 2, 20000),
         "first": (lambda count: 2, 200000), "last": (lambda count: 2, 2000)}


def call_cost(program, kind, count):
    calls_of, calls = KINDS[kind]
    rounds = calls // calls_of(count)
    none = least_time([program, kind, str(count), "0"])
    some = least_time([program, kind, str(count), str(rounds)])
    return max(some - none, 1e-9) / (rounds * calls_of(count)) * 1e6


def main():
    with tempfile.TemporaryDirectory() as folder:
        write_crates(folder, CRATES + ("memblock_find", "growth_model", "memblock_grow"),
                     [("calls", "memblock_grow growth_model boot_journal bm_base", ())])
        program = build(folder, "calls", "claims")
        for kind in KINDS:
            costs = [call_cost(program, kind, count) for count in (1000, 10000)]
            print("%-6s %.2f us at 1,000, %.2f us at 10,000: 1 : %.1f" % (kind, costs[0], costs[1], costs[1] / costs[0]))


if __name__ == "__main__":
    main()
