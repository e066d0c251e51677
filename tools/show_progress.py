#!/usr/bin/env python3
"""show_progress.py LOG COMMAND..: runs the gate's COMMAND (`rt ci`), writes all its output to LOG, and shows its progress.

The output of the proofs is replaced by one line per crate: how many of the crates are proved, and the seconds so far. On a terminal this is one line that
is rewritten. The output after the proofs (tests, wrong bodies, the repository's own checks) is printed unchanged. If the command fails, the last 40 lines
of its output are printed too. The status is the command's.
"""

from __future__ import annotations

import os
import re
import subprocess
import sys
import time
from collections import deque

TOP = os.path.dirname(os.path.dirname(os.path.abspath(__file__)))
PROVED = re.compile(r"rt: (\w+) proved$")
# lines that the prover prints for each function, and on what it loads and counts
OF_A_PROOF = re.compile(r"(fn|trait|struct|enum|impl|logic|statements|crate|empty contracts|logic=)\b|note: ")


def count_crates() -> int:
    """The number of crates in crates.txt."""
    with open(f"{TOP}/crates.txt", encoding="utf-8") as file:
        return sum(1 for line in file if line.split("#")[0].strip())


class Progress:
    """The progress of a run as it is shown."""

    def __init__(self) -> None:
        self.crates, self.done, self.began = count_crates(), 0, time.monotonic()
        self.is_terminal = sys.stdout.isatty()
        self.last: deque[str] = deque(maxlen=40)

    def take(self, line: str) -> None:
        """Prints a line of the command's output, or the progress in place of a line of a proof."""
        proved = PROVED.match(line)
        if proved and self.done < self.crates:
            self.done += 1
            seconds = int(time.monotonic() - self.began)
            text = f"{self.done} of {self.crates} crates proved, {seconds} s: {proved[1]}"
            print(f"\r\033[K{text}" if self.is_terminal else text, end="" if self.is_terminal else "\n", flush=True)
            if self.is_terminal and self.done == self.crates:
                print()
        elif OF_A_PROOF.match(line):
            self.last.append(line)
        else:
            self.last.append(line)
            print(f"\r\033[K{line}" if self.is_terminal else line, flush=True)


def main() -> int:
    if len(sys.argv) < 3:
        print((__doc__ or "").strip(), file=sys.stderr)
        return 2
    progress = Progress()
    with open(sys.argv[1], "w", encoding="utf-8") as log:
        command = subprocess.Popen(sys.argv[2:], stdout=subprocess.PIPE, stderr=subprocess.STDOUT, text=True, errors="replace")
        assert command.stdout is not None
        for line in command.stdout:
            log.write(line)
            log.flush()
            progress.take(line.rstrip("\n"))
        status = command.wait()
    if status != 0:
        print("\n".join(["The end of the output:", *progress.last]), file=sys.stderr)
        print(f"The whole output is in {sys.argv[1]}.", file=sys.stderr)
    return status


if __name__ == "__main__":
    sys.exit(main())
