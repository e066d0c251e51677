#!/usr/bin/env python3
"""gate.py [COMMAND..]: what the gate costs, crate by crate.

Runs the command (default: .ci/run), sends its output to standard error, and sums the processor time of the prover's processes
that it starts, read from /proc four times a second (Linux only). The time that a process uses after its last sample is lost, so
the sums are a little low; the last line has the system's own total, and the elapsed time. Prints a table in processor minutes:
for each crate its proof, its tests, the number of its wrong bodies, and their cost, including the proof over which they are
tried. Exits with the command's status.

Other programs that run meanwhile aren't counted, but raise the times. If an earlier run left a crate's results, its figures say little.
"""

import glob
import os
import re
import resource
import subprocess
import sys
import time

TICK = os.sysconf("SC_CLK_TCK")
CRATE = re.compile(r"--crate-name[ =](\S+)")
KINDS = ("its proof", "its tests", "their cost")
TOP = os.path.join(os.path.dirname(os.path.abspath(__file__)), "..")


def kind_of(words, folder):
    """The purpose of a prover process, by its command line and working directory."""
    if "/rt-edit" in words or "/rt-edit" in folder:
        return "their cost"
    return "its tests" if " --test" in words else "its proof"


def processes():
    """Each process's command line, working directory, and the fields of /proc/PID/stat after the name, by its number."""
    found = {}
    for number in filter(str.isdigit, os.listdir("/proc")):
        try:
            with open(f"/proc/{number}/cmdline", "rb") as file:
                words = file.read().replace(b"\0", b" ").decode(errors="replace")
            with open(f"/proc/{number}/stat", encoding="ascii", errors="replace") as file:
                found[number] = words, os.readlink(f"/proc/{number}/cwd"), file.read().rsplit(")", 1)[1].split()
        except OSError:
            pass
    return found


def is_below(number, top, found):
    """Whether the process is top or a descendant of it."""
    while number in found and number != top:
        number = found[number][2][1]
    return number == top


def look(used, top):
    """Records the processor seconds of each prover process below top, by its number and start time."""
    found = processes()
    for number, (words, folder, fields) in found.items():
        crate = CRATE.search(words)
        if crate and is_below(number, top, found):
            spent = (int(fields[11]) + int(fields[12])) / TICK
            used[number, fields[19]] = (crate.group(1), kind_of(words, folder), spent)


def bodies(crate):
    """How many wrong bodies the crate has."""
    return len(glob.glob(os.path.join(TOP, "crates", crate, "must-fail", "*.edit")))


def line(name, sums, many, places):
    proof, tests, cost = (f"{sums[kind]:.{places}f}" if sums[kind] >= 0.05 else "" for kind in KINDS)
    return f"| {name} | {proof} | {tests} | {many or ''} | {cost} |"


def table(used):
    """The lines of the table, the costliest crate first."""
    sums = {}
    for crate, kind, spent in used.values():
        sums.setdefault(crate, dict.fromkeys(KINDS, 0.0))[kind] += spent / 60
    yield "| crate | its proof | its tests | wrong bodies | their cost |"
    yield "|---|---|---|---|---|"
    for crate in sorted(sums, key=lambda name: -sum(sums[name].values())):
        yield line(f"`{crate}`", sums[crate], bodies(crate), 1)
    whole = {kind: sum(each[kind] for each in sums.values()) for kind in KINDS}
    yield line("all", whole, sum(map(bodies, sums)), 0)


def main():
    command = sys.argv[1:] or [os.path.join(TOP, ".ci", "run")]
    if command[0] in ("-h", "--help"):
        print(__doc__.strip())
        return 0
    used = {}
    began = time.monotonic()
    with subprocess.Popen(command, stdout=sys.stderr) as run:
        while run.poll() is None:
            look(used, str(run.pid))
            time.sleep(0.25)
    clock = (time.monotonic() - began) / 60
    whole = resource.getrusage(resource.RUSAGE_CHILDREN)
    print(*table(used), sep="\n")
    print(f"all of the command: {(whole.ru_utime + whole.ru_stime) / 60:.1f} of a processor, {clock:.1f} on the clock")
    return run.returncode


if __name__ == "__main__":
    sys.exit(main())
