#!/usr/bin/env python3
"""audit.py [ROUNDS]: measures the time and memory of ./bootaudit over large reports: the minimum of ROUNDS rounds (7 by default).

The script generates the reports of two kinds of machine, with RAM from 1 MiB on. In the first all frames are free, in the blocks that a boot
reports. In the second every other frame has an owner. The program is the one that `make bootaudit` builds. Prints a line for each machine: its
name, the bytes of the reports, the wall-clock and processor seconds, bytes per wall-clock second, and the process's peak memory.
"""

import os
import subprocess
import sys
import tempfile
import time

TOP = os.path.abspath(os.path.join(os.path.dirname(os.path.abspath(__file__)), ".."))
MIB = 1 << 20
TIB = 1 << 40
PAGE = 4096


def zone(at):
    """The name of the zone in which the address lies."""
    return "DMA" if at < 16 * MIB else "DMA32" if at < 4096 * MIB else "Normal"


def free_machine(room, size):
    """RAM from 1 MiB up to that size, all of it free: two smaller blocks, then blocks of 4 MiB."""
    with open(f"{room}/map", "w", encoding="ascii") as file:
        file.write(f"0x{MIB:016x}..0x{size - 1:016x} 1 usable\n")
    open(f"{room}/owners", "w", encoding="ascii").close()
    with open(f"{room}/blocks", "w", encoding="ascii") as file:
        for order, at in ((8, MIB), (9, 2 * MIB)):
            file.write(f"node 0 zone DMA order {order} 0x{at:016x}\n")
        file.writelines(f"node 0 zone {zone(at)} order 10 0x{at:016x}\n" for at in range(4 * MIB, size, 4 * MIB))


def owned_machine(room, owners):
    """RAM from 1 MiB on, of two frames for each owner: the first is the owner's, the second is free."""
    places = [MIB + 2 * PAGE * number for number in range(owners)]
    with open(f"{room}/map", "w", encoding="ascii") as file:
        file.write(f"0x{MIB:016x}..0x{places[-1] + 2 * PAGE - 1:016x} 1 usable\n")
    with open(f"{room}/owners", "w", encoding="ascii") as file:
        file.writelines(f"{index:4}: 0x{at:016x}..0x{at + PAGE - 1:016x} script {index}\n" for index, at in enumerate(places))
    with open(f"{room}/blocks", "w", encoding="ascii") as file:
        file.writelines(f"node 0 zone {zone(at)} order 0 0x{at + PAGE:016x}\n" for at in places)


def measure(room, rounds):
    """The least wall-clock and processor seconds of the rounds, and the peak KiB of a process."""
    clock, processor, memory = [], [], 0
    for _ in range(rounds):
        start = time.monotonic()
        process = subprocess.Popen([f"{TOP}/bootaudit", "map", "owners", "blocks"], cwd=room, stdout=subprocess.PIPE)
        said = process.stdout.read()
        _, status, used = os.wait4(process.pid, 0)
        clock.append(time.monotonic() - start)
        processor.append(used.ru_utime + used.ru_stime)
        process.returncode = os.waitstatus_to_exitcode(status)
        if (process.returncode, said) != (0, b"sound\n"):
            sys.exit(f"audit.py: status {process.returncode}, {said!r}")
        memory = max(memory, used.ru_maxrss)
    return min(clock), min(processor), memory


def main():
    rounds = int(sys.argv[1]) if len(sys.argv) > 1 else 7
    rows = [(f"{size // TIB} TiB, free", free_machine, size) for size in (2 * TIB, 4 * TIB, 8 * TIB, 16 * TIB)]
    rows += [(f"{owners} owners, a free frame after each", owned_machine, owners) for owners in (250_000, 500_000, 1_000_000)]
    for what, make, size in rows:
        with tempfile.TemporaryDirectory() as room:
            make(room, size)
            count = sum(os.path.getsize(f"{room}/{name}") for name in ("map", "owners", "blocks"))
            clock, processor, memory = measure(room, rounds)
        print(f"{what}: {count / 1e6:.0f} MB, {clock:.3f} s, {processor:.3f} s of a processor, {count / 1e6 / clock:.0f} MB/s, {memory / 1024:.0f} MiB")
    return 0


if __name__ == "__main__":
    sys.exit(main())
