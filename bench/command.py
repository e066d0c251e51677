#!/usr/bin/env python3
"""command.py PREFIX [ROUNDS]: measures how much longer the installed command `bootmem` under PREFIX takes than the program that it starts. Runs the
program in libexec and the command 100 times per round, and prints the least mean of each, in milliseconds."""

import os
import subprocess
import sys
import time

RUNS = 100
ZERO_PAGE = os.path.join(os.path.dirname(os.path.abspath(__file__)), "..", "examples", "first", "zp.bin")


def milliseconds(program):
    """The mean of the runs of a program."""
    start = time.perf_counter()
    for _ in range(RUNS):
        subprocess.run([program, "--report", "map", ZERO_PAGE], stdout=subprocess.DEVNULL, check=True)
    return (time.perf_counter() - start) * 1000 / RUNS


def main(prefix, rounds="7"):
    """Prints both and their difference."""
    programs = [os.path.join(prefix, "libexec", "bootmem", "bootmem"), os.path.join(prefix, "bin", "bootmem")]
    program, command = (min(each) for each in zip(*(map(milliseconds, programs) for _ in range(int(rounds)))))
    print(f"program {program:.2f} ms, command {command:.2f} ms, beyond it {command - program:.2f} ms (at most 2)")


if __name__ == "__main__":
    main(*sys.argv[1:])
