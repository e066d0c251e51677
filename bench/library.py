#!/usr/bin/env python3
"""library.py [PROGRAM]: boots per second through libbootmem.so and as processes, for some machines of examples/. Run by hand, at the top.

A call is bootmem_run from one thread of Python, including the overhead of ctypes; a process is the program, started and waited for. Both print `map` and
`buddyinfo`: one warm-up run, then all runs that fit into two seconds.
"""

import os
import subprocess
import sys
import time

TOP = os.path.join(os.path.dirname(os.path.abspath(__file__)), "..")
os.environ.setdefault("BOOTMEM_LIB", os.path.join(TOP, "libbootmem.so"))
sys.path.insert(0, os.path.join(TOP, "tools"))
sys.dont_write_bytecode = True
from bootmem_tools import library  # noqa: E402

MACHINES = ["first", "q35-1g", "q35-8g-numa2", "q35-20g-numa4"]


def rate(run):
    """Runs per second."""
    run()
    count, begun = 0, time.monotonic()
    while time.monotonic() - begun < 2:
        run()
        count += 1
    return count / (time.monotonic() - begun)


def main():
    program = os.path.abspath(sys.argv[1] if len(sys.argv) > 1 else os.path.join(TOP, "bootmem"))
    print("machine report calls/s processes/s ratio")
    for machine in MACHINES:
        folder = os.path.join(TOP, "examples", machine)
        given = os.path.join(folder, "words")
        named = open(given, encoding="utf-8").read().split() if os.path.exists(given) else ["zp.bin"]
        files = {}
        for name in named:
            path = os.path.join(folder, name)
            if os.path.isfile(path):
                with open(path, "rb") as file:
                    files[name] = file.read()
        for report in ("map", "buddyinfo"):
            words = ["--report", report, *named]
            wanted = subprocess.run([program, *words], cwd=folder, capture_output=True, check=True).stdout
            if library.run(words, files) != wanted:
                sys.exit(f"{machine}: {report}: the library answers otherwise")
            calls = rate(lambda: library.run(words, files))
            processes = rate(lambda: subprocess.run([program, *words], cwd=folder, capture_output=True, check=True))
            print(f"{machine} {report} {calls:.0f} {processes:.0f} {calls / processes:.1f}")


if __name__ == "__main__":
    main()
