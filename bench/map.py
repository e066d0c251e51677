#!/usr/bin/env python3
"""What the map costs over 800 and over 3,200 entries, and over 6,553 and 26,214 descriptors of an EFI memory map, the most that its
file has room for, without what is before and after it.

usage: bench/map.py [RUNS]

It proves and builds bench/map.main.txt as a program over a copy of the crates of the map, in a folder of its own. A round of it reads
the bytes of a zero page, an extension, a command line and an EFI memory map, settles the table after the first two and after the other two,
trims the BIOS's part, makes the map and checks it. A round opens no file, makes no text and sets up no memory. A shape is a table with its first
128 entries in the zero page and the others in the extension, and a command line; or the descriptors of an EFI memory map, added to two
entries.

The program runs RUNS times over each shape with ROUNDS rounds, with one and with none, in random order; the least time of each counts.
`first`: one round less none, so a round in a new process, which touches its memory for the first time; `next`: each later round.
`at most`: the limit in milliseconds of a `next` round over the larger table.
"""
import os
import random
import struct
import subprocess
import sys
import tempfile
import time

from memblock import write_crates

CRATES = ("bm_base", "address_runs", "e820_model", "e820_sanitise", "e820_table", "text_words", "boot_options", "efi_map")
SMALL, LARGE = 800, 3200
FEW, MANY = 6553, ((1 << 20) - 8) // 40
ROUNDS = 21
BASE, SLOT = 0x100000, 0x4000
TYPES = (1, 2, 3, 4, 5, 7, 12)


def disjoint(count, chance):
    """Entries that neither touch nor overlap, in order."""
    return [(BASE + i * SLOT, SLOT // 2, 1 + i % 2) for i in range(count)]


def shuffled(count, chance):
    """The same in no order."""
    entries = disjoint(count, chance)
    chance.shuffle(entries)
    return entries


def overlapping(count, chance):
    """At random places, as long all together as the room that they lie in, of seven types."""
    return [(BASE + chance.randrange(4 * count) * 0x1000, chance.randrange(1, 8) * 0x1000, chance.choice(TYPES))
            for _ in range(count)]


def nested(count, chance):
    """Each within the one before, of two types in turn, so that few runs come out."""
    return [(BASE + i * 0x1000, (2 * count - i) * 0x1000, 1 + i % 2) for i in range(count)]


def joined(count, chance):
    """In order, and every two touch and have one type, so that half as many runs come out."""
    return [(BASE + i * SLOT // 2 + i // 2 * SLOT, SLOT // 2, 1 + i // 2 % 2) for i in range(count)]


def adds(count):
    """The command line of `count` map options that reserve 64 KiB each."""
    return b"memmap=" + b",".join(b"64K$0x%x" % (0x200000 + i * 0x100000) for i in range(count))


def removes(count):
    """The command line of `count` map options that take RAM away from 64 KiB each."""
    return b"memmap=" + b",".join(b"64K%%0x%x-1" % (0x200000 + i * 0x100000) for i in range(count))


SHAPES = (
    ("disjoint", disjoint, b"", 0.6),
    ("shuffled", shuffled, b"", None),
    ("overlapping at random", overlapping, b"", 1.2),
    ("nested", nested, b"", None),
    ("every two join", joined, b"", None),
    ("disjoint, 100 adds", disjoint, adds(100), 1.5),
    ("disjoint, 100 removes", disjoint, removes(100), 1.5),
)


def descriptors(count, chance):
    """Memory of boot services and free memory in turn, each behind the one before: one run comes out."""
    return [(BASE + i * SLOT, SLOT, (3, 4, 7)[i % 3]) for i in range(count)]


def any_order(count, chance):
    """The same in no order."""
    found = descriptors(count, chance)
    chance.shuffle(found)
    return found


def crossing(count, chance):
    """At random places, eight times as long all together as the room that they lie in, so that few runs come out."""
    return [(BASE + chance.randrange(4 * count) * 0x1000, chance.randrange(1, 64) * 0x1000, 7) for _ in range(count)]


def within(count, chance):
    """Each within the one before, free memory and ACPI's tables in turn, so that few runs come out."""
    return [(BASE + i * 0x1000, (2 * count - i) * 0x1000, (7, 9)[i % 2]) for i in range(count)]


EFI_SHAPES = (
    ("EFI, in order", descriptors, 20),
    ("EFI, in no order", any_order, 20),
    ("EFI, at random", crossing, 20),
    ("EFI, nested", within, 20),
)


def build(folder):
    """Proves and builds the program in the folder, and gives its path."""
    write_crates(folder, CRATES, [("map", "efi_map e820_sanitise e820_table e820_model boot_options address_runs bm_base",
                                   [("proofs/edit_settled/Invariants.antt", "map.invariants.txt")])])
    here = os.path.join(folder, "crates", "bench_map")
    words = write_inputs(os.path.join(folder, "first"), disjoint(SMALL, None), b"", [])
    done = subprocess.run(["rt", "run", "--"] + words + ["1"], cwd=here, capture_output=True, text=True)
    if done.returncode != 0:
        sys.exit("bench: map isn't built\n" + done.stdout[-3000:] + done.stderr[-3000:])
    return os.path.join(here, "out", "bench_map")


def write_inputs(folder, entries, line, efi):
    """Writes the four files, and gives their names."""
    page = bytearray(4096)
    first, others = entries[:128], entries[128:]
    page[0x1E8] = len(first)
    for i, entry in enumerate(first):
        struct.pack_into("<QQI", page, 0x2D0 + 20 * i, *entry)
    data = b"".join(struct.pack("<QQI", *entry) for entry in others)
    os.mkdir(folder)
    paths = [os.path.join(folder, name) for name in ("zp.bin", "ext.bin", "line", "efi.bin")]
    described = b"".join(struct.pack("<IIQQQQ", kind, 0, base, 0, size >> 12, 0x8) for base, size, kind in efi)
    for path, held in zip(paths, (bytes(page), struct.pack("<QII", 0, 1, len(data)) + data, line + b"\n",
                                  struct.pack("<II", 40, 1) + described)):
        with open(path, "wb") as file:
            file.write(held)
    return paths


def one_run(words):
    """The seconds that a program takes on its words."""
    start = time.perf_counter()
    status = os.waitpid(os.posix_spawn(words[0], words, os.environ), 0)[1]
    took = time.perf_counter() - start
    if status != 0:
        sys.exit("bench: %s: status %d" % (" ".join(words), os.waitstatus_to_exitcode(status)))
    return took


def least_times(program, inputs, runs):
    """The least time of each input with each number of rounds; all of them once in each run, in another order each time."""
    order = [(name, rounds) for name in inputs for rounds in (0, 1, ROUNDS)]
    least = dict.fromkeys(order, float("inf"))
    chance = random.Random(1)
    for _ in range(runs):
        chance.shuffle(order)
        for name, rounds in order:
            least[name, rounds] = min(least[name, rounds], one_run([program] + inputs[name] + [str(rounds)]))
    return least


def main():
    runs = int(sys.argv[1]) if len(sys.argv) > 1 else 100
    with tempfile.TemporaryDirectory() as folder:
        program = build(folder)
        inputs = {}
        for number, (name, make, line, _) in enumerate(SHAPES):
            for count in (SMALL, LARGE):
                place = os.path.join(folder, "%d-%d" % (number, count))
                inputs[name, count] = write_inputs(place, make(count, random.Random(1)), line, [])
        for number, (name, make, _) in enumerate(EFI_SHAPES, len(SHAPES)):
            for count in (FEW, MANY):
                place = os.path.join(folder, "%d-%d" % (number, count))
                inputs[name, count] = write_inputs(place, disjoint(2, None), b"", make(count, random.Random(1)))
        least = least_times(program, inputs, runs)
    first = {name: max(least[name, 1] - least[name, 0], 1e-9) * 1e3 for name in inputs}
    each = {name: max(least[name, ROUNDS] - least[name, 1], 1e-9) / (ROUNDS - 1) * 1e3 for name in inputs}
    print("the map, milliseconds of a round, the least of %d runs" % runs)
    print("%-22s %9s %9s %9s %9s %7s %7s %9s" % ("", "800 first", "next", "3,200 first", "next", "at most", "times", "disjoint"))
    for name, _, _, most in SHAPES:
        small, large = (name, SMALL), (name, LARGE)
        print("%-22s %9.3f %9.3f %11.3f %9.3f %7s %7.1f %9.2f"
              % (name, first[small], each[small], first[large], each[large], most or "-", each[large] / each[small],
                 each[large] / each["disjoint", LARGE]))
    print("%-22s %11s %9s %11s %9s %7s %7s" % ("", "6,553 first", "next", "26,214 first", "next", "at most", "times"))
    for name, _, most in EFI_SHAPES:
        small, large = (name, FEW), (name, MANY)
        print("%-22s %11.3f %9.3f %11.3f %9.3f %7s %7.1f"
              % (name, first[small], each[small], first[large], each[large], most, each[large] / each[small]))


if __name__ == "__main__":
    main()
