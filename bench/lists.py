#!/usr/bin/env python3
"""What the lists of all nodes cost on a machine of 1,024 nodes of three zones, and 10,000 lines near a node or naming a zone.

usage: bench/lists.py

It proves and builds bench/lists.main.txt as a program over a copy of the crates, in a folder of its own, and prints milliseconds: the least
time of several runs with rounds, less the least time of runs without.
"""
import tempfile

from memblock import build, least_time, write_crates

CRATES = ("bm_base", "address_runs", "run_edits", "text_words", "phys_store", "memblock_model", "script_reader", "memblock_ranges", "memblock_frames",
          "buddy_blocks", "free_areas", "zone_spans", "buddy_handover", "page_alloc", "slit_zonelists")
ROUNDS = {"lists": 10, "near": 20, "pages": 20}


def main():
    with tempfile.TemporaryDirectory() as folder:
        write_crates(folder, CRATES, [("lists", "slit_zonelists page_alloc buddy_handover zone_spans bm_base", [])])
        program = build(folder, "lists", "near")
        for kind, rounds in ROUNDS.items():
            none = least_time([program, kind, "1024", "0"])
            some = least_time([program, kind, "1024", str(rounds)])
            print("%-5s %.1f ms" % (kind, max(some - none, 0) / rounds * 1e3))


if __name__ == "__main__":
    main()
