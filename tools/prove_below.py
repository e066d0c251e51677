#!/usr/bin/env python3
"""prove_below.py CRATE: proves the crates below CRATE, in parallel where none of them depends on another.

Up to one crate per processor runs at once, as far as memory allows (3 GB each). A crate is skipped if neither its files nor the crates below it changed
since it was proved here. Standard error shows how many of the crates are proved and the seconds so far: on a terminal in one line that is rewritten,
otherwise in one line per crate. The prover's output goes to crates/NAME/out/build.log. The variable RT names the toolchain's command.
The status is 0 if all are proved. Otherwise it is 1, and the end of the failed crate's log is printed.
"""

from __future__ import annotations

import hashlib
import os
import subprocess
import sys
import time

TOP = os.path.dirname(os.path.dirname(os.path.abspath(__file__)))
RT = os.environ.get("RT", "rt")
MEMORY_PER_CRATE = 3_000_000  # kB


def read_crates() -> dict[str, list[str]]:
    """The crates of crates.txt, each with the crates of the repository that it uses."""
    uses = {}
    with open(f"{TOP}/crates.txt", encoding="utf-8") as file:
        for line in file:
            head, colon, names = line.split("#")[0].partition(":")
            if colon:
                uses[head.split()[0]] = names.split()
    return {name: [other for other in others if other in uses] for name, others in uses.items()}


def crates_below(crate: str, uses: dict[str, list[str]]) -> list[str]:
    """The crates that this one depends on, lowest first."""
    order: list[str] = []

    def visit(name: str) -> None:
        for other in uses[name]:
            if other not in order:
                visit(other)
                order.append(other)

    visit(crate)
    return order


def source_files(crate: str) -> list[str]:
    """The files of a crate that a proof reads."""
    found = []
    for folder, folders, names in os.walk(f"{TOP}/crates/{crate}"):
        folders[:] = sorted(name for name in folders if name not in ("out", "must-fail"))
        found += [f"{folder}/{name}" for name in sorted(names) if name.endswith((".rt", ".antt"))]
    return found


def lengths_of_chains(order: list[str], uses: dict[str, list[str]]) -> dict[str, int]:
    """For each crate, the bytes of sources on the longest chain of crates from it up to the top."""
    sizes = {name: sum(os.path.getsize(path) for path in source_files(name)) for name in order}
    chains: dict[str, int] = {}
    for name in reversed(order):
        above = [chains[other] for other in chains if name in uses[other]]
        chains[name] = sizes[name] + max(above, default=0)
    return chains


def checksum(crate: str, uses: dict[str, list[str]], sums: dict[str, str]) -> str:
    """A checksum of the toolchain, the crate's files and the crates that it uses."""
    digest = hashlib.sha256(sums[""].encode())
    for path in source_files(crate):
        digest.update(f"{os.path.relpath(path, TOP)}\n".encode())
        with open(path, "rb") as file:
            digest.update(file.read())
    for other in sorted(uses[crate]):
        digest.update(sums[other].encode())
    return digest.hexdigest()


def is_proved(crate: str, total: str) -> bool:
    """Whether the crate's library exists and was proved from files with this checksum."""
    out = f"{TOP}/crates/{crate}/out"
    if not os.path.isdir(f"{out}/rlib/{crate}.rlib") or not os.path.exists(f"{out}/proved"):
        return False
    with open(f"{out}/proved", encoding="utf-8") as file:
        return file.read() == total


def processes_at_once() -> int:
    """How many crates can be proved at once with the processors and the available memory."""
    available = 0
    try:
        with open("/proc/meminfo", encoding="utf-8") as file:
            for line in file:
                if line.startswith("MemAvailable:"):
                    available = int(line.split()[1])
    except OSError:
        available = MEMORY_PER_CRATE
    return max(1, min(len(os.sched_getaffinity(0)), available // MEMORY_PER_CRATE))


class Progress:
    """What standard error shows while crates are proved."""

    def __init__(self, what: str, count: int) -> None:
        self.what, self.count, self.done, self.began = what, count, 0, time.monotonic()
        self.is_terminal = sys.stderr.isatty()

    def text(self, names: list[str]) -> str:
        seconds = int(time.monotonic() - self.began)
        return f"{self.what}: {self.done} of {self.count} crates proved, {seconds} s: {' '.join(names)}"

    def show(self, running: list[str]) -> None:
        if self.is_terminal:
            print(f"\r\033[K{self.text(running)[:110]}", end="", file=sys.stderr, flush=True)

    def finish(self, name: str) -> None:
        self.done += 1
        if not self.is_terminal:
            print(self.text([name]), file=sys.stderr, flush=True)

    def end(self) -> None:
        if self.is_terminal:
            print("\r\033[K", end="", file=sys.stderr, flush=True)


def start(crate: str) -> subprocess.Popen[bytes]:
    """Starts the process that proves the crate and makes its library."""
    os.makedirs(f"{TOP}/crates/{crate}/out", exist_ok=True)
    with open(f"{TOP}/crates/{crate}/out/build.log", "wb") as log:
        return subprocess.Popen([RT, "lib"], cwd=f"{TOP}/crates/{crate}", stdin=subprocess.DEVNULL, stdout=log, stderr=log)


def fail(crate: str, running: dict[str, subprocess.Popen[bytes]]) -> int:
    """Ends the processes that still run and prints the end of this crate's log. Returns the status 1."""
    for process in running.values():
        process.terminate()
    path = f"{TOP}/crates/{crate}/out/build.log"
    with open(path, encoding="utf-8", errors="replace") as log:
        print("".join(log.readlines()[-30:]), file=sys.stderr, end="")
    print(f"{crate}: not proved; the whole log is {path}", file=sys.stderr)
    return 1


def prove(crate: str, uses: dict[str, list[str]]) -> int:
    """Proves the crates below this one that aren't proved yet. Returns the status."""
    order = crates_below(crate, uses)
    sums = {"": subprocess.run([RT, "version"], capture_output=True, text=True, check=True).stdout}
    for name in order:
        sums[name] = checksum(name, uses, sums)
    left = [name for name in order if not is_proved(name, sums[name])]
    chains = lengths_of_chains(order, uses)
    progress = Progress(crate, len(left))
    running: dict[str, subprocess.Popen[bytes]] = {}
    most = processes_at_once()
    while left or running:
        ready = [name for name in left if not any(other in left or other in running for other in uses[name])]
        for name in sorted(ready, key=lambda name: -chains[name])[:most - len(running)]:
            left.remove(name)
            running[name] = start(name)
        progress.show(list(running))
        time.sleep(0.5)
        for name in [name for name, process in running.items() if process.poll() is not None]:
            if running.pop(name).returncode != 0:
                progress.end()
                return fail(name, running)
            with open(f"{TOP}/crates/{name}/out/proved", "w", encoding="utf-8") as file:
                file.write(sums[name])
            progress.finish(name)
    progress.end()
    return 0


def main() -> int:
    uses = read_crates()
    if len(sys.argv) != 2 or sys.argv[1] not in uses:
        print((__doc__ or "").strip(), file=sys.stderr)
        return 2
    return prove(sys.argv[1], uses)


if __name__ == "__main__":
    sys.exit(main())
