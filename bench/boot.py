#!/usr/bin/env python3
"""What a whole boot costs on large inputs: runs ./bootmem over generated inputs and prints a table of costs.

usage: bench/boot.py [ROUNDS] [PROGRAM]

In each round the program runs once on every input, in random order. For each input the least elapsed time and the least processor
time count; other programs disturb the latter less. A cost is such a time, or the difference between the times of two inputs.
Before the rounds each output is checked: its number of lines must show that no request was refused.

script lines  over 64 GiB in one run of memory. `reserve`: pages with a page between, in no order; `alloc`: pages, each below the last;
              `alloc, free`: a page is allocated and freed in turn.
fills         over the same memory: 10,000 places of 65,536 bytes are claimed and then filled, beyond the same script without the fills.
              `alloc`: each place right below the last; `reserve`: places that lie apart, in no order.
domains       3,000 runs of memory with gaps between, mostly of 4 MiB, and an SRAT of 2,048 blocks of 1,024 domains over them, a block
              over one run or two. `apart`: the two blocks of a domain have those of all others between them, and the table is in no
              order; `together`: they lie side by side, and the table is in order.
16 TiB        in one run: 131,072 sections and 4.1 million free blocks, whose lines go to a file, as those of `cat` do.
single maps   in the same memory. A crash area leaves 255 GiB above 4 GiB: too little for the 131,072 maps in one piece, so each is
              placed alone, right below the last, and has its own owner.
3,000 runs    the same without an SRAT.
"""
import os
import random
import signal
import struct
import sys
import tempfile
import time

MIB, GIB, TIB = 1 << 20, 1 << 30, 1 << 40
LOW = (0, 0xA0000, 1)
# the environment that tools/command.sh gives the program
AS_INSTALLED = {**os.environ, "GLIBC_TUNABLES": "glibc.malloc.hugetlb=1"}
FEW, MANY = 1000, 10000
RUNS, BLOCKS, DOMAINS = 3000, 2048, 1024
SECTIONS = 131072
FREE_BLOCKS = 4128763
BLOCKS_TEXT = ("great", "blocks")


def reserves(count):
    places = list(range(count))
    random.Random(1).shuffle(places)
    return ["reserve %d 0x%x 4K" % (i, 64 * MIB + 0x2000 * i) for i in places]


def allocs(count):
    return ["alloc %d 4K 4K" % i for i in range(count)]


def allocs_and_frees(count):
    return [line for i in range(count // 2) for line in ("alloc %d 4K 4K" % i, "free %d" % i)]


KINDS = (("reserve", reserves), ("alloc", allocs), ("alloc, free", allocs_and_frees))


def great_allocs(count):
    return ["alloc %d 64K 64K" % i for i in range(count)]


def great_reserves(count):
    places = list(range(count))
    random.Random(1).shuffle(places)
    return ["reserve %d 0x%x 64K" % (i, 64 * MIB + 0x20000 * i) for i in places]


def fills(count):
    return ["fill %d 0xA5" % i for i in range(count)]


FILLED = (("alloc", great_allocs), ("reserve", great_reserves))


def one_run(end):
    """The entries of a machine with memory up to this address."""
    return [LOW, (MIB, end - MIB, 1)]


def many_runs():
    """The entries of a machine with 3,000 runs of memory."""
    return [LOW, (MIB, 59 * MIB, 1)] + [(64 * MIB + 8 * MIB * i, 4 * MIB, 1) for i in range(RUNS - 2)]


def block_ranges():
    """The ranges of the blocks, ascending: first addresses and sizes."""
    entries = many_runs()
    cuts = [entries[RUNS * i // BLOCKS][0] for i in range(BLOCKS)] + [sum(entries[-1][:2])]
    return [(cuts[i], cuts[i + 1] - cuts[i]) for i in range(BLOCKS)]


def domains_apart():
    blocks = [(i % DOMAINS, *block) for i, block in enumerate(block_ranges())]
    random.Random(1).shuffle(blocks)
    return blocks


def domains_together():
    return [(i * DOMAINS // BLOCKS, *block) for i, block in enumerate(block_ranges())]


def srat(blocks):
    """The table of these blocks: domain, first address and size of each."""
    body = b"".join(struct.pack("<BBIHQQIIQ", 1, 40, domain, 0, base, size, 0, 1, 0) for domain, base, size in blocks)
    table = bytearray(struct.pack("<4sIBB", b"SRAT", 48 + len(body), 3, 0) + bytes(38) + body)
    table[9] = -sum(table) % 256
    return bytes(table)


def write(folder, name, held):
    path = os.path.join(folder, name)
    with open(path, "wb") as file:
        file.write(held)
    return path


def machine(folder, name, entries):
    """Writes a machine's entries, the first 128 into a zero page and the others into an extension; the words that name them."""
    packed = [struct.pack("<QQI", *entry) for entry in entries]
    page = bytearray(4096)
    page[0x1E8] = len(packed[:128])
    first, others = b"".join(packed[:128]), b"".join(packed[128:])
    page[0x2D0:0x2D0 + len(first)] = first
    words = [write(folder, name + ".zp", bytes(page))]
    if others:
        words = ["--e820ext", write(folder, name + ".ext", struct.pack("<QII", 0, 1, len(others)) + others)] + words
    return words


def make_inputs(folder):
    """The words of each run, by what is run, and the number of lines that it must print."""
    plain = machine(folder, "plain", one_run(64 * GIB))
    great = machine(folder, "great", one_run(16 * TIB))
    runs = machine(folder, "runs", many_runs())
    inputs = {"no script": (["script"] + plain, 0), "no srat": (["nodes"] + runs, 3)}
    for number, (kind, lines_of) in enumerate(KINDS):
        for count in (FEW, MANY):
            held = "".join(line + "\n" for line in lines_of(count)).encode()
            path = write(folder, "script-%d-%d" % (number, count), held)
            inputs[kind, count] = (["script", "--script", path] + plain, count)
    for kind, lines_of in FILLED:
        for what, lines in (("claimed", lines_of(MANY)), ("filled", lines_of(MANY) + fills(MANY))):
            path = write(folder, "fills-%s-%s" % (kind, what), "".join(line + "\n" for line in lines).encode())
            inputs[what, kind] = (["script", "--script", path] + plain, len(lines))
    for name, blocks, joined in (("apart", domains_apart(), BLOCKS), ("together", domains_together(), DOMAINS)):
        path = write(folder, name + ".srat", srat(blocks))
        inputs["srat", name] = (["nodes", "--srat", path] + runs, 2 + DOMAINS + joined)
    for report, count in (("memory", 2), ("sections", 1 + SECTIONS // 256 + SECTIONS), ("buddyinfo", 3), ("blocks", FREE_BLOCKS)):
        inputs["great", report] = ([report] + great, count)
    path = write(folder, "cmdline", b"crashkernel=16125G,high\n")
    inputs["great", "single maps"] = (["crash", "--cmdline", path] + great, 2)
    for report, count in (("map", RUNS + 1), ("memory", RUNS), ("buddyinfo,zones", 8)):
        inputs["runs", report] = ([report] + runs, count)
    return inputs


def one_time(command, path=os.devnull):
    """Seconds from start to end, and seconds of the processor; the text goes to the path."""
    if path != os.devnull and os.path.exists(path):
        os.remove(path)
    output = [(os.POSIX_SPAWN_OPEN, 1, path, os.O_WRONLY | os.O_CREAT, 0o600)]
    start = time.perf_counter()
    _, status, used = os.wait4(os.posix_spawnp(command[0], command, AS_INSTALLED, file_actions=output), 0)
    took = time.perf_counter() - start
    if status != 0:
        sys.exit("bench: %s: status %d" % (" ".join(command), os.waitstatus_to_exitcode(status)))
    return took, used.ru_utime + used.ru_stime


def full_pipe():
    """A pipe into which nothing can be written until it is read; both ends."""
    reader, writer = os.pipe()
    os.set_blocking(writer, False)
    try:
        while True:
            os.write(writer, bytes(4096))
    except BlockingIOError:
        os.set_blocking(writer, True)
    return reader, writer


def most_resident(command):
    """The most bytes that the program had resident by its first write, behind which it makes no text. What `getrusage` says
    of a child isn't below what this script itself had when it started the child."""
    reader, writer = full_pipe()
    child = os.posix_spawn(command[0], command, AS_INSTALLED, file_actions=[(os.POSIX_SPAWN_DUP2, writer, 1)])
    status = {}
    while not status.get("State", "").startswith("S"):
        time.sleep(0.01)
        with open("/proc/%d/status" % child) as file:
            status = {key: value.strip() for key, _, value in (line.partition(":") for line in file)}
        if "VmHWM" not in status:
            sys.exit("bench: %s: it ended early" % " ".join(command))
    os.kill(child, signal.SIGKILL)
    os.waitpid(child, 0)
    os.close(reader)
    os.close(writer)
    return int(status["VmHWM"].split()[0]) * 1024


def check_texts(commands, inputs, path):
    """Looks at each text once, line by line; that of the blocks, which is the last, stays at the path."""
    for name in sorted(inputs, key=lambda name: name == BLOCKS_TEXT):
        one_time(commands[name], path)
        with open(path, "rb") as file:
            count = sum(b"no gap" not in line for line in file)
        if count != inputs[name][1]:
            sys.exit("bench: %s: %d lines in place of %d, or a refusal" % (name, count, inputs[name][1]))


def least_costs(commands, to_file, rounds):
    """The least times of each command by its name."""
    costs = dict.fromkeys(commands, (float("inf"), float("inf")))
    order, chance = list(commands), random.Random(1)
    for _ in range(rounds):
        chance.shuffle(order)
        for name in order:
            took, used = one_time(commands[name], to_file.get(name, os.devnull))
            costs[name] = (min(costs[name][0], took), min(costs[name][1], used))
    return costs


def figures(seconds):
    """The rows of the table by the seconds of each run: what, how much, its unit, and what it is to be at most."""
    rows = []
    for kind, _ in KINDS:
        few, many = ((seconds[kind, count] - seconds["no script"]) / count * 1e6 for count in (FEW, MANY))
        rows.append(("script lines: %s, one of 1,000" % kind, few, "us", None))
        rows.append(("script lines: %s, one of 10,000" % kind, many, "us", None))
        rows.append(("script lines: %s, one of 10,000 to one of 1,000" % kind, many / few, "times", 12))
    rows.append(("script lines: 10,000 of each kind, in all", sum(seconds[kind, MANY] for kind, _ in KINDS) * 1e3, "ms", 1000))
    for kind, _ in FILLED:
        rows.append(("fills: 10,000 of 65,536 bytes, %s" % kind, (seconds["filled", kind] - seconds["claimed", kind]) * 1e3, "ms", 1000))
    for name in ("apart", "together"):
        rows.append(("domains: %s, beyond no SRAT" % name, (seconds["srat", name] - seconds["no srat"]) * 1e3, "ms", 20))
    rows.append(("16 TiB: sections, beyond memory", (seconds["great", "sections"] - seconds["great", "memory"]) * 1e3, "ms", 50))
    rows.append(("16 TiB: single maps", seconds["great", "single maps"] * 1e3, "ms", 1000))
    rows.append(("16 TiB: buddyinfo", seconds["great", "buddyinfo"] * 1e3, "ms", 100))
    rows.append(("16 TiB: blocks", seconds["great", "blocks"] * 1e3, "ms", None))
    rows.append(("16 TiB: blocks, to cat of the same bytes", seconds["great", "blocks"] / seconds["cat"], "times", 2))
    rows.append(("3,000 runs: buddyinfo and zones", seconds["runs", "buddyinfo,zones"] * 1e3, "ms", 20))
    rows.append(("3,000 runs: memory, to map", seconds["runs", "memory"] / seconds["runs", "map"], "times", 2))
    return rows


def print_table(costs, resident):
    elapsed, processor = ({name: cost[i] for name, cost in costs.items()} for i in range(2))
    print("%-58s %12s %12s  %s" % ("", "elapsed", "processor", "at most"))
    for (what, amount, unit, bound), (_, used, _, _) in zip(figures(elapsed), figures(processor)):
        print("%-58s %6.2f %-5s %6.2f %-5s  %s" % (what, amount, unit, used, unit, bound or "-"))
    for report, bound in (("buddyinfo", "50"), ("sections", "-"), ("blocks", "-")):
        print("%-58s %6.1f MB                  %s" % ("16 TiB: %s, most resident" % report, resident[report] / 1e6, bound))


def main():
    words = sys.argv[1:]
    rounds = int(words.pop(0)) if words and words[0].isdigit() else 20
    program = os.path.abspath(words[0] if words else "bootmem")
    if not os.access(program, os.X_OK):
        sys.exit("bench: there is no program %s: 'make bootmem' builds it" % program)
    with tempfile.TemporaryDirectory() as folder:
        inputs = make_inputs(folder)
        commands = {name: [program, "--report"] + words for name, (words, _) in inputs.items()}
        blocks, copy = os.path.join(folder, "blocks"), os.path.join(folder, "copy")
        check_texts(commands, inputs, blocks)
        size = os.path.getsize(blocks)
        resident = {report: most_resident(commands["great", report]) for report in ("buddyinfo", "sections", "blocks")}
        commands["cat"] = ["cat", blocks]
        costs = least_costs(commands, {BLOCKS_TEXT: copy, "cat": copy}, rounds)
    print("%s, the least of %d rounds; the text of the blocks has %.1f MB" % (os.path.basename(program), rounds, size / 1e6))
    print_table(costs, resident)


if __name__ == "__main__":
    main()
