"""bootmem-linux: on each machine of examples/ crash area and node data are the kernel's own, and each
claim in the kernel's log has a rule, or a reason why it has none. Also how the inputs are read."""

import collections
import os
import re
import resource
import struct
import unittest

from support import (
    GIB,
    LOW,
    MIB,
    PROGRAM,
    PROGRAM61,
    RAM,
    RESERVED,
    TOP,
    Case,
    bytes_of,
    example,
    extension,
    has_file,
    machine_of,
    machines,
    memory_of,
    program,
    ran,
    rows_of,
    srat,
    text_of,
    tool,
    unsealed,
    words_of,
    write,
)
from test_claims_from_log import ROOMS
from test_commands import shown_examples
from bootmem_tools import (
    as_linux,
    inputs,
    kernel_log,
    linux_claims,
    linux_cma,
    linux_log,
    linux_srat,
)
from bootmem_tools.direct_map import PMD, PUD, DirectMap, Free
from bootmem_tools.tool import Trouble

FRAME = 4096
NODE_DATA = re.compile(r"NODE_DATA\((\d+)\) allocated \[mem 0x(\w+)-0x(\w+)\]")
SETUP_DATA, BOOT_SERVICES = "memblock_x86_reserve_range_setup_data", "efi_reserve_boot_services"
PAGE_TABLES = "alloc_low_pages"
# The kernel functions whose claims bootmem-linux takes from a log.
LOGGED = (
    "efi_memattr_init",
    "efi_tpm_eventlog_init",
    "acpi_reserve_initial_tables",
    BOOT_SERVICES,
)
# The claims in the kernels' logs, from the first dump of memblock to the end of sparse_init, and how
# many there are of each kind. A kind is the kernel function whose rule bootmem-linux follows without
# a log, the owner for which bootmem makes the claim, or the reason why neither makes it.
RULES = rows_of(
    """
memblock_x86_reserve_range_setup_data | 6
efi_memblock_x86_reserve_range | 4
reserve_brk | 47
efi_reserve_boot_services | 413
alloc_low_pages | 110
setup_log_buf | 132
numa_alloc_distance | 1
relocate_initrd | 7
bootmem: low-1m | 95
bootmem: initrd | 40
bootmem: node-data | 64
bootmem: crash | 20
bootmem: roots | 47
bootmem: root | 48
bootmem: usage | 64
bootmem: map | 64
reason: given back | 108
reason: not in memory | 322
reason: a table of EFI, whose place no input tells | 4
reason: a page table of the memory map, which bootmem has none of | 94
"""
)


def boot_words(name):
    """The program's words for a machine, with all files of the machine."""
    words = words_of(name)
    for option, file in (("--efi", "efi.bin"), ("--slit", "slit.bin")):
        words = [option, file] * (has_file(name, file) and option not in words) + words
    return words


def linux_words(name):
    """The words for a machine that only bootmem-linux has."""
    return text_of(example(name, "linux")).split() if has_file(name, "linux") else []


USAGE, OWN_USAGE = 56, 40  # bytes of a section's usage data in these kernels and in bootmem


def part_of_sections(words):
    """The kind in RULES of an allocation by sparse_init, which shows in the form of its words; None
    for other words."""
    if words[0] != "alloc":
        return None
    size, form = int(words[2]), re.sub(r"0x\w+", "X", " ".join(words[3:]))
    if form == "64" and size in (32768, 2097152):  # the table of roots (memory_present)
        return "bootmem: roots"
    if size == FRAME and re.fullmatch(r"64 node \d+", form):  # sparse_index_alloc
        return "bootmem: root"
    if size % USAGE == 0 and re.fullmatch(r"64 (min X )?max X node \d+", form):
        return "bootmem: usage"
    if size % PMD == 0 and re.fullmatch(rf"{PMD} min X node \d+ exact", form):  # sparse_buffer_init
        return "bootmem: map"
    if size == FRAME and re.fullmatch(rf"{FRAME} min X node \d+", form):  # vmemmap_alloc_block
        return "reason: a page table of the memory map, which bootmem has none of"
    return None


def kernel_claims(name):
    """The claims of a kernel up to the end of sparse_init, in their order: the first byte, the end,
    the words of the claim, and whether it was freed."""
    script = [line.split() for line in text_of(example(name, "replay/script")).splitlines()]
    answers = dict(
        line.split(": ", 1) for line in text_of(example(name, "replay/script.txt")).splitlines()
    )
    has_roots = False
    for number, words in enumerate(script, 1):
        if int(words[1]) >= ROOMS:  # room for what the program claims by itself
            continue
        part = part_of_sections(words)
        if has_roots and words[0] == "alloc" and part is None:
            return
        has_roots = has_roots or part == "bootmem: roots"
        freed = words[0] == "reserve" and script[number : number + 1] == [["free", words[1]]]
        if words[0] == "reserve":
            yield int(words[2], 16), int(words[2], 16) + int(words[3], 16), words, freed
        elif words[0] == "alloc" and answers[str(number)].startswith("at "):
            place = int(answers[str(number)][3:], 16)
            yield place, place + int(words[2]), words, False


def is_crash(words):
    """Whether the words of an allocation ask for the crash area or its low part."""
    return words[0] == "alloc" and words[3] in ("16777216", "1048576")


def is_node_data(words):
    """Whether the words of an allocation ask for a node's data."""
    return words[0] == "alloc" and words[2:5] == ["176128", "64", "node"]


# A line of --explain: the range of a `reserve`, or the size and the place of an `alloc`; a description;
# and the kernel function.
EXPLAINED = re.compile(
    r"claim: (?:reserve \d+ (?P<base>0x\w+) (?P<bytes>0x\w+): done"
    r"|alloc \d+ (?P<size>\d+) \d+(?: \w+ \w+)*: at (?P<place>0x\w{16})): .* \((?P<rule>\w+)\)$",
    re.MULTILINE,
)


def claims_in(err):
    """The claims that bootmem61 made, from the lines of --explain: first byte, end and kernel function.
    A line with several page tables is one claim for each."""
    found = []
    for match in EXPLAINED.finditer(err):
        first = int(match["base"] or match["place"], 16)
        size = int(match["bytes"], 16) if match["bytes"] else int(match["size"])
        each = FRAME if match["rule"] == PAGE_TABLES else size
        found += [(at, at + each, match["rule"]) for at in range(first, first + size, each)]
    return found


def claims_by_rule(err):
    """The claims that bootmem61 made, by kernel function."""
    found = collections.defaultdict(list)
    for first, end, rule in claims_in(err):
        found[rule].append((first, end))
    return found


class Boot:
    """A machine's boot by bootmem-linux: status, standard error, claims with their rules, owners and
    memory."""

    def __init__(self, name, *more):
        self.status, owners, self.err = tool(
            "bootmem-linux",
            "--explain",
            *more,
            *linux_words(name),
            "--report",
            "owners",
            *boot_words(name),
            folder=example(name),
        )
        memory = program(example(name), "--report", "memory", *words_of(name))
        self.claims = claims_in(self.err)
        self.owners = [
            (int(first, 16), int(last, 16) + 1, owner)
            for first, last, owner in re.findall(
                r"^ *\d+: (0x\w+)\.\.(0x\w+) (.*)$", owners, re.MULTILINE
            )
        ]
        self.memory = [
            (int(first, 16), int(last, 16) + 1)
            for first, last in re.findall(r"(0x\w+)\.\.(0x\w+)$", memory, re.MULTILINE)
        ]

    def places(self, *owners):
        """The ranges of these owners in ascending order. The owners are named without their numbers."""
        return sorted(
            (first, end) for first, end, owner in self.owners if owner.split()[0] in owners
        )


def frames_of(first, end):
    """The whole frames that a range touches."""
    return first // FRAME, -(-end // FRAME)


def rule_of(claim, boot, given_back):
    """The kind in RULES of a claim by the kernel; None if neither program makes it and there is no
    reason."""
    first, end, words, freed = claim
    if freed or (first, end) in given_back:
        return "reason: given back"
    if part_of_sections(words):
        return part_of_sections(words)
    if is_crash(words) or is_node_data(words):
        return "bootmem: crash" if is_crash(words) else "bootmem: node-data"
    for low, high, rule in boot.claims:
        if (
            (low, high) == (first, end)
            or rule == SETUP_DATA
            and frames_of(low, high) == frames_of(first, end)
        ):
            return rule
    for low, high, owner in boot.owners:
        if low <= first and end <= high and owner.split()[0] in ("low-1m", "initrd"):
            return f"bootmem: {owner.split()[0]}"
    if not any(low < end and first < high for low, high in boot.memory):
        return "reason: not in memory"
    if any(
        rule == BOOT_SERVICES and low <= first and end <= high for low, high, rule in boot.claims
    ):
        return "reason: a table of EFI, whose place no input tells"
    return None


class Linux(Case):
    """Boots as Linux 6.1 makes them."""

    def test_boots(self):
        """Crash area and node data are the kernel's own, and there are equally many maps and usage data.
        Each claim of the kernel up to the end of sparse_init has a rule or a reason."""
        counts, nodes, crashes, over = collections.Counter(), 0, 0, 0
        for name in machines():
            if not has_file(name, "replay/script"):
                continue
            boot, claims = Boot(name), list(kernel_claims(name))
            wanted = [
                sorted((first, end) for first, end, words, _ in claims if asks(words))
                for asks in (is_node_data, is_crash)
            ]
            self.check(f"{name}: status", boot.status, 0)
            self.check(f"{name}: node data", boot.places("node-data"), wanted[0])
            self.check(f"{name}: crash area", boot.places("crash", "crash-low"), wanted[1])
            for owner, own, theirs in (("map", 1, 1), ("usage", OWN_USAGE, USAGE)):
                sizes = [
                    end - first
                    for first, end, words, _ in claims
                    if part_of_sections(words) == f"bootmem: {owner}"
                ]
                made = sum(end - first for first, end in boot.places(owner))
                self.check(f"{name}: {owner}", made // own, sum(sizes) // theirs)
            nodes, crashes = nodes + len(wanted[0]), crashes + len(wanted[1])
            given_back = {(first, end) for first, end, _, freed in claims if freed}
            for claim in claims:
                rule = rule_of(claim, boot, given_back)
                self.check(
                    f"{name}: who makes {claim[0]:#x}-{claim[1]:#x}, {' '.join(claim[2])}",
                    rule is not None,
                    True,
                )
                counts[rule] += 1
            logged = {frames_of(first, end) for first, end, _, _ in claims}
            # boot services that hold EFI's memory attributes stay free in the kernel (ovmf-2g-tpm)
            over += sum(
                first >= MIB and frames_of(first, end) not in logged
                for first, end, _ in boot.claims
            )
        self.check(
            "linux: node data, crash areas, and claims that the log lacks",
            (nodes, crashes, over),
            (64, 20, 1),
        )
        self.check(
            "linux: who makes the claims", counts, {rule: int(count) for rule, count in RULES}
        )

    def test_nodes(self):
        """Nodes and their data have the numbers in the kernel's log, also with generic initiators. A
        disabled initiator ends the pass over processors."""
        compared = []
        for name in machines():
            lines = text_of(example(name, "log")).splitlines() if has_file(name, "log") else []
            data = [match for match in map(NODE_DATA.search, lines) if match]
            if not data:
                continue
            places = [f"node-data {match[1]}: {match[2]}..{match[3]}" for match in data]
            words = [*linux_words(name), "--report", "owners,nodes", *boot_words(name)]
            _, out, _ = tool("bootmem-linux", *words, folder=example(name))
            ours = re.findall(r"0x0*(\w+)\.\.0x0*(\w+) (node-data \d+)$", out, re.MULTILINE)
            self.check(
                f"{name}: node data by node",
                sorted(f"{owner}: {first}..{last}" for first, last, owner in ours),
                sorted(places),
            )
            domains = re.findall("^domain.*", kernel_log.nodes_text(lines), re.MULTILINE)
            if domains:
                compared.append(name)
                self.check(f"{name}: nodes", re.findall("^domain.*", out, re.MULTILINE), domains)
        self.check("linux: domains that a log has", compared, ["srat-initiator-off"])

    def test_logs(self):
        """With the boot's own log bootmem-linux claims the same tables of EFI and ACPI as this kernel,
        and leaves the same boot services free."""
        counts = collections.Counter()
        for name in machines():
            log = text_of(example(name, "log")) if has_file(name, "log") else ""
            if "ACPI: Reserving" not in log:  # three logs have only the lines about memory
                continue
            boot = Boot(name, "--log", "log")
            for rule in LOGGED:
                theirs = re.findall(rf"memblock_reserve: \[0x(\w+)-0x\w+\] {rule}\+", log)
                ours = sorted(first for first, _, by in boot.claims if by == rule)
                self.check(f"{name}: {rule}", ours, sorted(int(first, 16) for first in theirs))
                counts[rule] += len(ours)
            asked = list(kernel_claims(name))
            for asks, owners in ((is_node_data, ["node-data"]), (is_crash, ["crash", "crash-low"])):
                wanted = sorted((first, end) for first, end, words, _ in asked if asks(words))
                self.check(f"{name}, its log: {owners[0]}", boot.places(*owners), wanted)
        self.check("linux: claims by logs", all(counts[rule] for rule in LOGGED), True)

    def test_owned(self):
        """In a running kernel's map, boot services that hold an earlier claim have the attribute of
        runtime services. These stay free. Three others are claimed: a kept part of a descriptor, a
        descriptor of one frame and one outside memory. If the map has no others, all are claimed."""
        name, log = "ovmf-2g-tpm", text_of(example("ovmf-2g-tpm", "log"))
        theirs = {
            (int(first, 16), int(last, 16) + 1)
            for first, last in re.findall(
                rf"memblock_reserve: \[(0x\w+)-(0x\w+)\] {BOOT_SERVICES}\+", log
            )
        }
        map_data = bytes_of(example(name, "efi.bin"))
        words = [word for word in words_of(name) if word not in ("--efi", "efi.bin")]
        # the descriptor of EFI's memory attributes, which the kernel leaves free
        first, last, runtime = 0x7DC20000, 0x7DC29FFF, 1 << 63
        for what, end, over in (("whole", last + 1, 0), ("a part", last + 1 - FRAME, 1)):
            more = inputs.efi_map([(4, first, (end - first) // FRAME, runtime | 0xF)])[8:]
            write(self.path("efi"), map_data + more)
            options = ["--explain", "--report", "crash", "--efi", self.path("efi")]
            _, out, err = tool("bootmem-linux", *options, *words, folder=example(name))
            ours = set(claims_by_rule(err)[BOOT_SERVICES])
            self.check(f"owned, {what}: claims that the log lacks", len(ours - theirs), over)
            self.check(f"owned, {what}: the log's claims", theirs <= ours, True)
            said = f"{first:#018x}-{last:#018x} stay free" in err
            self.check(f"owned, {what}: it is said", said, not over)
            self.check(f"owned, {what}: the crash area", "0x0000000073000000.." in out, True)
        for what, descriptors, lacks in (
            ("a kept part alone", [(4, first, 9, runtime)], True),
            ("boot services", [(4, first, 9, runtime), (3, MIB, 1, 0)], False),
        ):
            write(self.path("efi"), inputs.efi_map(descriptors))
            options = ["--report", "crash", "--efi", self.path("efi")]
            _, _, err = tool("bootmem-linux", *options, *words, folder=example(name))
            said = "no boot services but those that a kernel keeps" in err
            self.check(f"owned, {what}", said, lacks)
        kept, rest, code = (4, 0x3F0000, 3, runtime), (4, 0x3F3000, 5, 0), (3, 0x3EF000, 1, 0)
        for what, descriptors, owned in (
            ("an earlier claim", [kept, code], [(0x3F0000, 0x3F3000)]),
            ("code, too", [(3, *kept[1:]), rest], [(0x3F0000, 0x3F3000)]),
            ("a part of what ends above it", [kept, rest], []),
            ("a part of what begins below it", [(4, 0x3EF000, 1, 0), kept], []),
            ("a part of one around it", [(4, 0x3EF000, 9, 0), kept], []),
            ("listed twice", [(*kept[:3], 0), kept], [(0x3F0000, 0x3F3000)]),
            ("one frame", [(4, 0x3F0000, 1, runtime), code], []),
            ("outside memory in part", [(4, 0x7FFE000, 3, runtime), code], []),
            ("nothing else", [kept], []),
            ("no boot services", [(6, *kept[1:]), code], []),
        ):
            write(self.path("efi"), inputs.efi_map(descriptors))
            machine = self.machine_with(linux_claims.read_descriptors(bytes_of(self.path("efi"))))
            self.check(f"owned: {what}", linux_claims.owned_services(machine), owned)
            claimed = [(one.first, one.end) for one in linux_claims.boot_services(machine, [])]
            self.check(f"claimed: {what}", set(owned) & set(claimed), set())

    def machine_with(self, descriptors):
        """A machine of 128 MiB with an EFI memory map."""
        memory, image = [(MIB, 128 * MIB)], (16 * MIB, 48 * MIB)
        return linux_claims.Machine(
            bytes(4096),
            "",
            memory,
            128 * MIB,
            [],
            image,
            linux_claims.BRK,
            descriptors,
            0,
            PMD,
            False,
            0,
            linux_log.NOTHING,
        )

    def test_alone(self):
        """With UEFI firmware the crash area lies elsewhere if the program runs without the tool."""
        words = ["--report", "crash", *boot_words("ovmf-4g-numa2")]
        status, out, _ = tool("bootmem-linux", *words, folder=example("ovmf-4g-numa2"))
        self.check(
            "linux: UEFI", (status, out), (0, "crash at 0x0000000073000000..0x000000007affffff\n")
        )
        self.check(
            "linux: without it",
            program(example("ovmf-4g-numa2"), *words),
            "crash at 0x0000000075000000..0x000000007cffffff\n",
        )

    def test_examples(self):
        """The commands in --help run over a machine with UEFI firmware."""
        shown = shown_examples("bootmem-linux")
        for command in shown:
            status, out, err = tool(*command.split(), folder=example("ovmf-4g-numa2"))
            self.check(f"example: {command}: status", status, 0)
            said = "claim: " if "--explain" in command else "there is no --efi"
            self.has(f"example: {command}: claims", err, said)
            self.check(f"example: {command}: it prints", bool(out), True)
        self.check("examples of --help", len(shown), 2)

    def test_words(self):
        """--pages and --brk change what is claimed."""
        words = ["--explain", "--kernel", "64M,16M", "zp"]
        self.make(machine_of(GIB))
        # with pages of 4 KiB there are 512 tables and two upper ones; brk has room for 16 of them
        for more, brk, tables in (
            ([], 0x11000, 0),
            (["--brk", "32K"], 0x8000, 0),
            (["--pages", "4K"], 0x11000, 498),
        ):
            err = tool("bootmem-linux", *more, *words, folder=self.work)[2]
            found = claims_by_rule(err)
            wanted = [(0x5000000, 0x5000000 + brk)]
            self.check(f"linux {more}: brk", found["reserve_brk"], wanted)
            self.check(f"linux {more}: page tables", len(found[PAGE_TABLES]), tables)

    def test_as_linux(self):
        """Tools that run the program with their user's words have --as-linux. The words are then those of bootmem-linux."""
        words = ["--as-linux", "--", "--pages", "2M", *boot_words("ovmf-4g-numa2")]
        folder = example("ovmf-4g-numa2")
        status, out, err = tool("bootmem-json", "--report", "crash", *words, folder=folder)
        self.check("json --as-linux: status", (status, "assumed: pages" in err, "unknown: " in err), (0, False, True))
        self.has("json --as-linux: the area", out, "0x0000000073000000")
        # brk begins at the image's end, at 0x1600000 + 0x3400000, and has 17 frames
        for place, early in (("0x4a10fff", True), ("0x4a11000", False), ("0x49fffff", False)):
            status, out, _ = tool("bootmem-where", place, *words, folder=folder)
            self.check(f"where --as-linux {place}", (status, out.splitlines()[-1] == "early    brk 0x0000000004a00000-0x0000000004a10fff, "
                                                     "claimed by reserve_brk"), (0, early))
        status, out, _ = tool("bootmem-draw", "--text", *words, folder=folder)
        self.check("draw --as-linux: status", status, 0)
        self.check("draw --as-linux: the area", re.findall(r"^ *(0x\w+) .*crash 128 MiB", out, re.MULTILINE), ["0x73000000"])
        self.has("draw --as-linux: an early claim", out, "boot services, type 4 128 KiB")
        for name, more in (("json", []), ("draw", ["--text"]), ("where", ["1M"])):
            self.check(f"{name} --as-linux, a text", tool(f"bootmem-{name}", *more, "--as-linux", "reports", folder=folder)[:2], (2, ""))
            self.check(f"{name} --as-linux, no page size", tool(f"bootmem-{name}", *more, "--as-linux", "--", "--pages", "3M", "zp.bin",
                                                                folder=folder)[:2], (2, ""))

    def test_as_program(self):
        """If bootmem-linux is the program of another tool, that tool shows a boot as Linux makes it."""
        linux = os.path.join(TOP, "tools", "bootmem-linux")
        words = ["--program", linux, "--", *boot_words("ovmf-4g-numa2")]
        folder = example("ovmf-4g-numa2")
        json = tool("bootmem-json", "--report", "crash", *words, folder=folder)
        self.check("bootmem-json: status", json[0], 0)
        self.has("bootmem-json: the area", json[1], "0x0000000073000000")
        where = tool("bootmem-where", "0x73000000", *words, folder=folder)
        self.check("bootmem-where: status", where[0], 0)
        self.has("bootmem-where: the area", where[1], "crash 0x0000000073000000")
        itself = tool("bootmem-linux", "--program", linux, "zp.bin", folder=folder)
        self.check("bootmem-linux as its own program", (itself[:2], itself[2].count("\n")), ((2, ""), 1))
        for name in ("bootmem-crash", "bootmem-fleet", "bootmem-live"):
            own = tool(name, "--program", linux, example("q35-1g"))
            self.check(f"{name} with bootmem-linux as its program", (own[:2], own[2].count("\n")), ((2, ""), 1))

    def test_time(self):
        """A boot of 3,172 entries takes less than half a second of processor time, or on a slow
        machine less than ten starts of the tool."""
        entries = (
            [(0, 0x9FC00, RAM)]
            + [(MIB + place * PMD, PMD - FRAME * (1 + place % 3), RAM) for place in range(20)]
            + [(64 * MIB, GIB, RAM)]
        )
        entries += [
            (2 * GIB + 2 * place * PMD, PMD + FRAME * (place % 7), RAM if place % 2 else RESERVED)
            for place in range(3150)
        ]
        self.make(entries)
        words = ["--kernel", "80M,52M", "--e820ext", "ext", "zp"]
        took, starts = [], []
        for _ in range(3):  # the shortest run counts, because other processes run, too
            time, _ = self.timed("--help")
            starts.append(time)
            time, (status, out, err) = self.timed("--report", "summary", "--explain", *words)
            took.append(time)
            self.check(
                "linux, 3,172 entries",
                (status, out.splitlines()[0], len(claims_by_rule(err)[PAGE_TABLES]) > 1000),
                (0, "runs 3173", True),
            )
            if b"__asan_init" in bytes_of(PROGRAM61):
                return  # a program with sanitizers is slower
        bound = max(0.5, 10 * min(starts))
        self.check(f"linux, 3,172 entries: {min(took)} s, at most {bound}", min(took) < bound, True)

    def timed(self, *words):
        """The processor time of a run of the tool in seconds, and the result of the run."""
        before = resource.getrusage(resource.RUSAGE_CHILDREN)
        result = tool("bootmem-linux", *words, folder=self.work)
        after = resource.getrusage(resource.RUSAGE_CHILDREN)
        return after.ru_utime + after.ru_stime - before.ru_utime - before.ru_stime, result

    def make(self, entries, **files):
        """Writes a zero page and an extension with these entries, and other files."""
        page, more = inputs.map_files(entries)
        for name, data in {"zp": page, **({"ext": more} if more else {}), **files}.items():
            write(self.path(name), data)

    def linux(self, *words):
        """Runs the tool in the test's folder. Returns status, output and the lines of standard error on
        changes."""
        status, out, err = tool("bootmem-linux", *words, folder=self.work)
        return (
            status,
            out,
            [
                line.split(": ", 2)[2]
                for line in err.splitlines()
                if line.startswith("bootmem-linux: changed: ")
            ],
        )

    def test_inputs(self):
        """The command line, the extension, EFI's specific-purpose memory and the image are read as the
        kernel reads them."""
        self.make(machine_of(GIB), line="mem=512MB crashkernel=64Mx")
        status, out, said = self.linux("--report", "map", "--cmdline", "line", "zp")
        self.check(
            "linux: a malformed size",
            (status, len(said) > 0, "000000001fffffff 1 usable" in out),
            (0, True, True),
        )
        self.check(
            "linux: the program refuses it",
            ran([PROGRAM, "--cmdline", "line", "zp"], folder=self.work)[0] != 0,
            True,
        )
        far = [(GIB, MIB, RAM), ((1 << 64) - FRAME, 2 * FRAME, RAM), (2 * GIB, MIB, RAM)]
        for what, data in (
            ("far", extension(far)),
            (
                "part",
                extension(far[:1])[:12]
                + struct.pack("<I", 27)
                + extension(far[:1])[16:]
                + bytes(7),
            ),
        ):
            write(self.path("more"), data)
            status, out, said = self.linux("--report", "map", "--e820ext", "more", "zp")
            self.check(
                f"linux: an extension, {what}",
                (
                    status,
                    "0x0000000040000000..0x00000000400fffff 1" in out,
                    "0x0000000080000000" in out,
                    len(said),
                ),
                (0, True, False, int(what == "far")),
            )
        self.make(
            [LOW, (MIB, 31 * MIB, RAM), (32 * MIB, 2 * MIB, RESERVED), (34 * MIB, 200 * MIB, RAM)]
        )
        status, out, said = self.linux("--report", "map", "--kernel", "16M,17M", "zp")
        self.check(
            "linux: an image outside RAM",
            (status, len(said), "..0x000000000212ffff 1 usable" in out),
            (0, 1, True),
        )
        write(self.path("efi"), inputs.efi_map([(7, GIB, 256, 0x4000F), (7, 2 * GIB, 256, 0xF)]))
        wanted = [
            "0x0000000040000000..0x00000000400fffff 4026531839 soft reserved",
            "0x0000000080000000..0x00000000800fffff 1 usable",
        ]
        for line, lines in (("", wanted), ("efi=nosoftreserve", [])):
            write(self.path("line"), line)
            _, out, said = self.linux(
                "--report", "map", "--kernel", "64M,16M", "--efi", "efi", "--cmdline", "line", "zp"
            )
            self.check(
                f"linux: specific purpose, {line}",
                (out.splitlines()[-2:] == wanted, len(said)),
                (lines == wanted, len(lines) // 2),
            )
        self.make(machine_of(GIB), line="memmap=exactmap memmap=640K@0 memmap=511M@1M -- x")
        _, out, _ = self.linux("--report", "owners", "--cmdline", "line", "zp")
        self.has(
            "linux: a user map and a claim",
            out,
            "0x0000000003000000..0x0000000003010fff script 4000000000\n",
        )
        for bad, why in (
            (["--nonsense"], "--nonsense: no such option"),
            ([], "no zero page is named"),
            (["zp", "zp"], "zp: a second zero page"),
            (["--kernel", "1", "zp"], "--kernel 1: 1 has no size after it"),
            (["--srat", "none", "zp"], "none: it doesn't exist"),
            (["."], ".: it is a folder"),
        ):
            theirs = ran([PROGRAM61, *bad], folder=self.work)
            ours = tool("bootmem-linux", *bad, folder=self.work)
            self.check(
                f"linux {bad}",
                (ours[0], ours[2].splitlines()[-2:-1]),
                (theirs[0], theirs[2].decode().splitlines()[-1:]),
            )
            self.has(f"linux {bad}: why", ours[2], f"\nbootmem-linux: {why}")
            if bad and bad[-1] == "zp":
                ours = tool("bootmem-json", "--", *bad, folder=self.work)
                self.has(f"json {bad}: why", ours[2], f"; {why}")
        for bad in (["--brk", "much", "zp"], ["--pages", "3M", "zp"]):
            self.check(f"linux {bad}", tool("bootmem-linux", *bad, folder=self.work)[:2], (2, ""))


    def test_tables(self):
        """An SRAT that isn't used is explained; a SLIT with a wrong checksum is read."""
        self.make([LOW, (MIB, GIB - MIB, RAM)])
        for what, blocks, wanted in (
            (
                "overlap",
                [(0, 512 * MIB, 3), (256 * MIB, 768 * MIB, 5)],
                (
                    "bootmem-linux: the SRAT isn't used: its blocks 0 and 1 overlap: "
                    "0x0000000000000000-0x000000001fffffff of domain 3 and "
                    "0x0000000010000000-0x000000003fffffff of domain 5"
                ),
            ),
            (
                "gap",
                [(0, 768 * MIB, 3)],
                (
                    "bootmem-linux: the SRAT isn't used: 65536 frames of memory are in none of its"
                    " blocks, 256 or more: 0x0000000030000000-0x000000003fffffff"
                ),
            ),
        ):
            write(self.path("srat"), inputs.srat(blocks, [3, 5]))
            words = ["--report", "nodes", "--kernel", "16M,32M", "--srat", "srat", "zp"]
            err = tool("bootmem-linux", *words, folder=self.work)[2]
            self.check(f"linux: an SRAT, {what}", err.splitlines()[-1:], [wanted])
        write(self.path("srat"), inputs.srat([(0, 512 * MIB, 0), (512 * MIB, 512 * MIB, 1)], [0, 1]))
        whole = inputs.slit([[10, 20], [20, 10]])
        for what, table, status, first, changes in (
            ("whole", whole, 0, "slit used", 0),
            ("a wrong checksum", unsealed(whole), 0, "slit used", 1),
            ("a wrong cell", inputs.slit([[10, 20], [20, 11]]), 0, "slit not valid 1 1", 0),
            ("a byte short", whole[:-1], 5, None, 0),
        ):
            write(self.path("slit"), table)
            words = ["--report", "zonelists", "--srat", "srat", "--slit", "slit", "zp"]
            ended, out, said = self.linux(*words)
            self.check(
                f"linux: a SLIT, {what}",
                (ended, (out.splitlines() or [None])[0], len(said)),
                (status, first, changes),
            )


def processor(domain, kind=2, flags=1, number=0):
    """An entry for the pass over processors: an x2APIC entry, or a generic initiator."""
    if kind == 5:
        return struct.pack("<BBBBI16sI4x", 5, 32, 0, 1, domain, bytes(16), flags)
    return struct.pack("<BBHIII8x", 2, 24, 0, domain, number, flags)


class Srat(Case):
    """SRATs as the kernel reads them."""

    def domains(self, *entries, x2apic=False):
        """The domains that the pass over processors finds in the table, and its blocks; None if the
        table is dropped."""
        reading = linux_srat.read_table(srat(*entries), x2apic)
        if reading.table is None:
            return None
        self.check("the checksum", sum(reading.table) % 256, 0)
        found = list(linux_srat.read_entries(reading.table))
        return (
            [struct.unpack_from("<I", entry, 4)[0] for kind, entry in found if kind == 2],
            [struct.unpack_from("<QQ", entry, 8) for kind, entry in found if kind == 1],
        )

    def test_srat(self):
        """Generic initiators, ids that can't be used, domains and lengths that drop the table,
        blocks past 2^64."""
        block, none = memory_of(0, 0, GIB), []
        for what, entries, wanted in (
            ("two processors", [processor(3), processor(1), block], ([3, 1], [(0, GIB)])),
            ("an initiator", [processor(3, 5), processor(1), block], ([3, 1], [(0, GIB)])),
            (
                "a disabled initiator ends the pass",
                [processor(1), processor(3, 5, 0), processor(2), block],
                ([1], [(0, GIB)]),
            ),
            (
                "an id that can't be used",
                [processor(1, number=255), processor(2, number=254)],
                ([2], none),
            ),
            ("domain 1,023", [processor(1023)], ([1023], none)),
            ("domain 1,024", [processor(1024), block], None),
            ("a block of domain 1,024", [memory_of(1024, 0, GIB)], None),
            ("a longer block", [memory_of(0, 0, GIB, length=44) + bytes(4)], (none, [(0, GIB)])),
            ("a shorter block", [memory_of(0, 0, GIB, length=32)[:32]], None),
            (
                "a processor of 17 bytes",
                [b"\0\x11" + inputs.processor_affinity(1)[2:] + bytes(1)],
                None,
            ),
            ("a block past 2^64", [memory_of(0, (1 << 64) - FRAME, 2 * FRAME)], (none, [(0, 0)])),
            ("a disabled block", [memory_of(0, 0, GIB, flags=0)], (none, none)),
        ):
            self.check(f"srat: {what}", self.domains(*entries), wanted)
        self.check(
            "srat: an id with --x2apic",
            self.domains(processor(1, number=255), x2apic=True),
            ([1], none),
        )
        wrong = linux_srat.read_table(unsealed(srat(block)), False)
        self.check("srat: a wrong checksum", (sum(wrong.table) % 256, len(wrong.changes)), (0, 1))
        for text in (b"", b"SRAT", b"SLIT" + bytes(60)):
            self.check(f"srat: {len(text)} bytes", linux_srat.read_table(text, False), (text, []))


LOG = """[    0.000000] efi: SMBIOS=0x3f9ab000 ACPI=0x3fb7d000 MEMATTR=0x3e4f3018 TPMFinalLog=0x3ea00000 RNG=0x3e4f4018
[    0.000000] reserve setup_data: [mem 0x0000000000001000-0x000000000009fbff] usable
[    0.000000] reserve setup_data: [mem 0x0000000000100000-0x0000000030000fff] usable
[    0.000000] reserve setup_data: [mem 0x0000000030001000-0x000000003000102b] usable
[    0.000000] reserve setup_data: [mem 0x000000003000102c-0x00000000300fffff] usable
[    0.000000] reserve setup_data: [mem 0x0000000030100000-0x000000003010001f] usable
[    0.000000] reserve setup_data: [mem 0x0000000030100020-0x000000003ffdefff] usable
[    0.000000] reserve setup_data: [mem 0x000000003ffdf000-0x000000003fffffff] reserved
[    0.012345] ACPI: Reserving FACP table memory at [mem 0x3ff00000-0x3ff000f3]
[    0.012346] ACPI: Reserving DSDT table memory at [mem 0x3ff10000-0x3ff12fff]
"""


class Told(Case):
    """Claims that the program's inputs don't show: those in a log, and the areas of cma= and hugetlb_cma=."""

    def linux(self, *words):
        """Runs over the test's files. Returns the claims by kernel function, the status and the output."""
        status, out, err = tool("bootmem-linux", "--explain", *words, folder=self.work)
        return claims_by_rule(err), status, out, err

    def test_log(self):
        """If a log has them, all nodes of setup_data and all tables of ACPI and EFI are claimed. Boot services with such a table aren't."""
        page = bytearray(inputs.zero_page(machine_of(GIB)))
        struct.pack_into("<Q", page, linux_claims.SETUP_DATA, 0x30001000)
        page[linux_claims.EFI_INFO:linux_claims.EFI_INFO + 4] = b"EL64"
        write(self.path("zp"), bytes(page))
        write(self.path("efi"), inputs.efi_map([(4, 0x3E400000, 256, 15), (4, 0x3E900000, 16, 15), (4, 0x3EA00000, 16, 15)]))
        write(self.path("log"), LOG)
        words = ["--report", "map", "--kernel", "64M,16M", "--efi", "efi", "zp"]
        found, status, out, err = self.linux("--log", "log", *words)
        self.check("log: status", status, 0)
        self.check("log: setup_data", found[SETUP_DATA], [(0x30001000, 0x3000102C), (0x30100000, 0x30100020)])
        self.check("log: ACPI tables", found["acpi_reserve_initial_tables"], [(0x3FF00000, 0x3FF000F4), (0x3FF10000, 0x3FF13000)])
        self.check("log: EFI's tables", (found["efi_memattr_init"], found["efi_tpm_eventlog_init"]),
                   ([(0x3E4F3018, 0x3E4F4000)], [(0x3EA00000, 0x3EA01000)]))
        self.check("log: boot services", found[BOOT_SERVICES], [(0x3E900000, 0x3E910000)])
        self.check("log: what is left unknown", ("nodes of setup_data" in err, "tables of ACPI" in err, "a frame each" in err),
                   (False, False, True))
        self.has("log: the map stays whole", out, "0x0000000030100020..0x000000003ffdefff 1 usable\n")
        found, _, _, err = self.linux(*words)
        self.check("no log", (found[SETUP_DATA], found["acpi_reserve_initial_tables"], sorted(found[BOOT_SERVICES])),
                   ([(0x30001000, 0x30001010)], [], [(0x3E400000, 0x3E500000), (0x3E900000, 0x3E910000), (0x3EA00000, 0x3EA10000)]))
        self.check("no log: what is unknown", ("nodes of setup_data" in err, "tables of ACPI" in err, "--log tells it" in err),
                   (True, True, True))
        self.check("no such log", tool("bootmem-linux", "--log", "none", *words, folder=self.work)[:2], (2, ""))

    def test_nodes(self):
        """Adjoining pieces of RAM are RAM and nodes in turn. The first node shows which are which."""
        pieces = [(0, 8), (16, 32), (32, 40), (40, 48), (64, 72), (72, 80)]
        for first, wanted in ((32, [(32, 40), (72, 80)]), (16, [(16, 32), (40, 48), (72, 80)]), (64, [(32, 40), (64, 72)])):
            self.check(f"setup_data from {first} on", list(linux_log.nodes_of(pieces, first)), wanted)

    def test_type(self):
        """RAM of a node has type 128, and the node is claimed, byte by byte."""
        page = bytearray(inputs.zero_page(machine_of(GIB)))
        struct.pack_into("<Q", page, linux_claims.SETUP_DATA, 0x30001000)
        write(self.path("zp"), bytes(page))
        with as_linux.prepared(PROGRAM61, ["--kernel", "64M,16M", self.path("zp")], as_linux.Settings()) as boot:
            out = program(self.work, "--report", "map,owners", *boot.words, path=PROGRAM61)
            self.has("a node's type", out, "0x0000000030001000..0x000000003000100f 128 ")
            self.has("a node is claimed", out, "0x0000000030001000..0x000000003000100f script 4000000000\n")

    def test_cma(self):
        """The area of cma= is placed as low as possible above 4 GiB, or else as high as possible below node data, in units of 2 MiB. The
        crash area is placed after it."""
        write(self.path("small"), inputs.zero_page(machine_of(GIB)))
        write(self.path("large"), inputs.zero_page(machine_of(8 * GIB)))
        # on the machine of 1 GiB node data has the last 172 KiB of RAM, which ends at 0x3ffdf000
        for page, line, wanted in (
                ("small", "cma=63M", [(0x3BE00000, 0x3FE00000)]),
                ("large", "cma=64M", [(4 * GIB, 4 * GIB + 64 * MIB)]),
                ("small", "cma=64M@256M", [(256 * MIB, 320 * MIB)]),
                ("small", "cma=64M@256M-512M", [(448 * MIB, 512 * MIB)]),
                ("small", "cma=64M@60M", []),  # the image is there
                ("small", "cma=2G", []),
                ("small", "cma=1M cma=0", []),
                ("small", "cma=x", [])):
            write(self.path("line"), line)
            found, status, _, err = self.linux("--cma", "--kernel", "64M,16M", "--cmdline", "line", page)
            self.check(f"{page}: {line}", (status, found["dma_contiguous_reserve"], "word 1" in err), (0, wanted, False))
        write(self.path("line"), "cma=64M crashkernel=128M")
        words = ["--report", "crash", "--kernel", "64M,16M", "--cmdline", "line", "small"]
        # below 0x3be00000, from a multiple of 16 MiB on
        self.check("the crash area", self.linux("--cma", *words)[2], "crash at 0x0000000033000000..0x000000003affffff\n")
        found, _, out, err = self.linux(*words)
        self.check("a kernel without CMA", (found["dma_contiguous_reserve"], out, "is built without CONFIG_CMA" in err),
                   ([], "crash at 0x0000000037000000..0x000000003effffff\n", True))

    def test_hugetlb(self):
        """The areas of hugetlb_cma= are whole GiB on the nodes, if the processor has pages of 1 GiB."""
        write(self.path("zp"), inputs.zero_page(machine_of(12 * GIB)))
        write(self.path("srat"), srat(memory_of(0, 0, 6 * GIB), memory_of(1, 6 * GIB, 7 * GIB)))
        # of 3 GiB node 0 gets half, rounded up to 2 GiB: node data leaves too little from 4 GiB on, so the area ends below 3 GiB
        for line, wanted in (("hugetlb_cma=1G", [4]), ("hugetlb_cma=2G", [4, 6]), ("hugetlb_cma=3G", [0, 6]),
                             ("hugetlb_cma=1:2G", [6]), ("hugetlb_cma=0:1G,1:1G", [4, 6]), ("hugetlb_cma=512M", []),
                             ("hugetlb_cma=7:1G", [])):
            write(self.path("line"), line)
            words = ["--cma", "--kernel", "64M,16M", "--cmdline", "line", "--srat", "srat", "zp"]
            found = self.linux("--pages", "1G", *words)[0]["hugetlb_cma_reserve"]
            self.check(line, [first // GIB for first, _ in found], wanted)
        found, _, _, err = self.linux(*words)
        self.check("without pages of 1 GiB", (found["hugetlb_cma_reserve"], "so hugetlb_cma= claims nothing" in err), ([], True))
        sizes = [end - first for first, end, *_ in [span for span, _, _ in linux_cma.areas(
            "hugetlb_cma=3G", Free([(MIB, 12 * GIB)]), [linux_cma.Node(0, [(MIB, 6 * GIB)]), linux_cma.Node(1, [(6 * GIB, 12 * GIB)])],
            12 * GIB, True)]]
        self.check("half of 3 GiB, rounded up, is all that is left", sizes, [2 * GIB, GIB])

    def test_initrd(self):
        """An initrd in memory that mem= removes moves to the highest mapped place. Node data is placed after it."""
        write(self.path("zp"), inputs.zero_page(machine_of(GIB), (768 * MIB, 16 * MIB)))
        for line, place, moves in (("mem=512M", 496 * MIB, True), ("mem=800M", 768 * MIB, False)):
            write(self.path("line"), line)
            _, _, out, err = self.linux("--report", "owners", "--kernel", "64M,16M", "--cmdline", "line", "zp")
            owner = "script 4000000001" if moves else "initrd"
            self.has(f"the initrd, {line}", out, f"{place:#018x}..{place + 16 * MIB - 1:#018x} {owner}\n")
            self.check(f"its old place, {line}", f" {768 * MIB:#018x}.." in out, not moves)
            self.check(f"it moves, {line}", f"it moves to {place:#x} (relocate_initrd)" in err, moves)
        write(self.path("line"), "mem=512M")
        _, _, out, _ = self.linux("--report", "owners", "--kernel", "64M,16M", "--cmdline", "line", "zp")
        self.has("node data", out, f"{496 * MIB - 0x2B000:#018x}..{496 * MIB - 1:#018x} node-data 0\n")

    def test_growth(self):
        """200 boot services that don't adjoin make the reserved table grow twice. It then lies in a gap.
        If each gap is too small for the table, one range isn't claimed, and a line says so."""
        write(self.path("zp"), inputs.zero_page(machine_of(GIB)))
        words = ["--report", "tables", "--kernel", "64M,16M", "--efi", "efi", "zp"]
        for gap, refused in ((16, 0), (1, 1)):
            last, pages = 0x3FFDF000, 32 - gap
            places = [last - (200 - number) * 32 * FRAME for number in range(200)]
            write(self.path("efi"), inputs.efi_map([(3, place, pages, 15) for place in places]))
            found, status, out, err = self.linux(*words)
            self.check(f"gaps of {gap} pages: status", status, 0)
            self.check(f"gaps of {gap} pages: claims", len(found[BOOT_SERVICES]), 200 - refused)
            self.check(f"gaps of {gap} pages: it is said", err.count("boot services, type 3 isn't claimed: "), refused)
            self.has(f"gaps of {gap} pages: the table", out, " room 256 records ")

    def test_claims_file(self):
        """The file of early claims has one form for each kind of claim. Users of the tool can't name
        such a file. A file that is too long is refused."""
        claim = linux_claims.Claim
        for made, lines in (
            (claim(4096, 8192, "x", "f"), ["reserve 4000000000 0x1000 0x1000"]),
            (claim(4096, 8192, "x", "f", 8, 0, 1 << 32), ["alloc 4000000000 4096 8 max 0x100000000"]),
            (claim(4096, 8192, "x", "f", 64, 16, 99), ["alloc 4000000000 4096 64 min 0x10 max 0x63"]),
            (claim(4096, 8192, "x", "f", is_freed=True), ["reserve 4000000000 0x1000 0x1000", "free 4000000000"]),
        ):
            self.check(f"{made}", [line for line, _ in linux_claims.file_lines([made])], lines)
        write(self.path("zp"), inputs.zero_page(machine_of(GIB)))
        status, out, err = tool("bootmem-linux", "--claims", "own", "zp", folder=self.work)
        self.check("a file of the user's", (status, out, "writes that file itself" in err), (2, "", True))
        line = "x" * 1023
        self.check("the longest file", len(as_linux.claims_file([line] * 1024)), MIB)
        with self.assertRaises(Trouble):
            as_linux.claims_file([line] * 1024 + [""])

    def test_gigantic(self):
        """nogbpages forbids pages of 1 GiB, so each GiB needs a table. brk has room for 16 tables, including the upper ones."""
        write(self.path("zp"), inputs.zero_page(machine_of(40 * GIB)))
        counts = []
        for pages, line in (("1G", "quiet"), ("1G", "nogbpages"), ("2M", "quiet")):
            write(self.path("line"), line)
            counts.append(len(self.linux("--pages", pages, "--kernel", "64M,16M", "--cmdline", "line", "zp")[0]["alloc_low_pages"]))
        self.check("page tables of memblock", (counts[0] < 16, counts[1] > 20, counts[1] == counts[2]), (True, True, True))

    def test_mirrored(self):
        """EFI's mirrored memory is treated like any other unless the line has kernelcore=mirror."""
        write(self.path("zp"), inputs.zero_page(machine_of(GIB)))
        write(self.path("efi"), inputs.efi_map([(7, 128 * MIB, 4096, 0x1000F)]))
        for line, wanted in (("quiet", False), ("kernelcore=mirror", True), ("kernelcore=1G", False)):
            write(self.path("line"), line)
            _, _, out, err = self.linux("--report", "owners", "--kernel", "64M,16M", "--efi", "efi", "--cmdline", "line", "zp")
            place = int(re.search(r"0x(\w+)\.\.0x\w+ node-data 0", out).group(1), 16)
            self.check(f"mirrored memory, {line}", (place < 144 * MIB, "memblock_mark_mirror" in err), (wanted, not wanted))


class Tables(Case):
    """Page tables of the direct map and other rules, each tested by itself."""

    def pages(self, memory, largest, five=False, random=False, brk=64 * MIB):
        """The numbers of page tables that memblock and brk provide."""
        made = DirectMap(memory, Free(memory), brk, largest, five, random)
        made.make(max(end for _, end in memory))
        return len(made.pages), (made.brk - brk) // FRAME

    def test_pages(self):
        """Counted by hand: a table for each 2 MiB, 1 GiB and 512 GiB that isn't one larger page. KASLR
        needs one page more, and with five levels two."""
        memory = [(FRAME, 640 << 10), (MIB, 4 * GIB)]
        # one table for 512 GiB, one for each GiB, and one for the first 2 MiB, which aren't memory
        # whole; larger pages need less
        self.check("2 MiB", sum(self.pages(memory, PMD)), 1 + 4 + 1)
        self.check("1 GiB", sum(self.pages(memory, PUD)), 1 + 1 + 1)
        self.check("4 KiB", sum(self.pages(memory, FRAME)), 1 + 4 + 2048)
        self.check("KASLR", sum(self.pages(memory, PMD, random=True)), 1 + 4 + 1 + 1)
        self.check("five levels", sum(self.pages(memory, PMD, five=True)), 1 + 4 + 1 + 1)
        self.check(
            "five levels, KASLR", sum(self.pages(memory, PMD, True, True)), 1 + 4 + 1 + 1 + 2
        )

    def test_log(self):
        """The log buffer is a power of two above 128 KiB. For each 32 bytes of it, 24 and 88 bytes are
        claimed besides."""
        for value, sizes in (
            ("1M", [MIB, 24 * 32768, 88 * 32768]),
            ("128K", []),
            ("0", []),
            ("nonsense", []),
            ("200K", [262144, 196608, 720896]),
        ):
            self.check(
                f"log_buf_len={value}",
                linux_claims.log_sizes(f"quiet log_buf_len={value} x"),
                sizes,
            )
        self.check(
            "the last counts",
            linux_claims.log_sizes("log_buf_len=1M log_buf_len=2M")[:1],
            [2 * MIB],
        )

    def test_free(self):
        """The search from the top down: aligned, within a window, never at 0."""
        free = Free([(0, 16 * FRAME), (32 * FRAME, 64 * FRAME)])
        free.claim(60 * FRAME, 70 * FRAME)
        self.check("the highest", free.find(FRAME, FRAME, 0, 1 << 40), 59 * FRAME)
        self.check("aligned", free.find(FRAME, 16 * FRAME, 0, 1 << 40), 48 * FRAME)
        self.check("below", free.find(FRAME, FRAME, 0, 20 * FRAME), 15 * FRAME)
        self.check("not at 0", free.find(16 * FRAME, FRAME, 0, 20 * FRAME), 0)
        self.check("too large", free.find(40 * FRAME, FRAME, 0, 1 << 40), 0)
        free.release([(60 * FRAME, 64 * FRAME)])
        self.check("given back", free.find(FRAME, FRAME, 0, 1 << 40), 63 * FRAME)


if __name__ == "__main__":
    unittest.main()
