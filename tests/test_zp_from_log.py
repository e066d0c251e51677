"""zp-from-log: zero pages, extensions and EFI memory maps from logs and lists, a round trip of every machine, and refusals."""

import os
import re
import struct
import unittest

from support import Case, bytes_of, entries_of, example, has_file, machines, program, text_of, tool

NAMES = {1: "usable", 2: "reserved", 3: "ACPI data", 4: "ACPI NVS", 5: "unusable", 7: "persistent (type 7)",
         12: "persistent (type 12)", 0xEFFFFFFF: "soft reserved"}


def log_line(number, table, entry):
    """The kernel's line for an entry, after a time stamp."""
    base, size, kind = entry
    name = NAMES.get(kind, f"type {kind}")
    return f"[    0.{number:06}] {table}: [mem {base:#018x}-{base + size - 1:#018x}] {name}\n"


def ascends(entries):
    """Whether the entries are like those of a settled table: ascending, without overlaps and not empty."""
    return all(size > 0 for _, size, _ in entries) and all(
        one[0] + one[1] <= two[0] for one, two in zip(entries, entries[1:]))


def log_of(name):
    """The lines that the kernel logs for a machine's zero page and extension, or None if their entries don't ascend."""
    page = bytes_of(example(name, "zp.bin"))
    first = entries_of(page, page[0x1E8], 0x2D0)
    more = []
    if has_file(name, "e820ext.bin"):
        data = bytes_of(example(name, "e820ext.bin"))
        more = entries_of(data, (len(data) - 16) // 20, 16)
    both = sorted(first + more)
    if not ascends(first) or not ascends(both):
        return None
    lines = ["[    0.000000] BIOS-provided physical RAM map:\n"]
    lines += [log_line(number, "BIOS-e820", entry) for number, entry in enumerate(first)]
    if more:
        lines += ["[    0.000999] extended physical RAM map:\n"]
        lines += [log_line(number, "extended", entry) for number, entry in enumerate(both)]
    image, size = (struct.unpack_from("<I", page, low)[0] | struct.unpack_from("<I", page, high)[0] << 32
                   for low, high in ((0x218, 0x0C0), (0x21C, 0x0C4)))
    if page[0x210] and image and size:
        lines.append(f"[    0.001000] RAMDISK: [mem {image:#010x}-{(image + size + 4095 & ~4095) - 1:#010x}]\n")
    return "".join(lines)


EFI_LOG = """[    0.000000] efi: EFI v2.70 by EDK II
[    0.000000] efi: mem00: [Boot Code   |   |  |  |  |  |  |  |  |  |   |WB|WT|WC|UC] range=[0x0000000000000000-0x0000000000000fff] (0MB)
[    0.000000] efi: mem01: [Conventional|   |MR|  |SP|  |  |  |  |  |   |WB|  |  |  ] range=[0x0000000100000000-0x00000001ffffffff] (4096MB)
[    0.000000] efi: mem02: [Runtime Data|RUN|  |CC|  |NV|XP|RP|WP|RO|UCE|  |  |  |UC] range=[0x000000003fef4000-0x000000003ff77fff] (0MB)
[    0.000000] efi: mem03: [type=15|attr=0x8000000000100001] range=[0x0000000040000000-0x0000000040000fff] (0MB)
[    0.000000] efi: mem04: [Persistent  |   |  |  |  |  |  |  |  |  |   |  |  |  |  ] range=[0x0000000050000000-0x000000004fffffff] (0MB)
[    0.100000] efi: mem00: [MMIO        |RUN|  |  |  |  |  |  |  |  |   |  |  |  |UC] range=[0x00000000ffc00000-0x00000000ffffffff] (4MB)
"""

# UC 0x1, WB 0x8, UCE 0x10, WP 0x1000, RP 0x2000, XP 0x4000, NV 0x8000, MR 0x10000, RO 0x20000, SP 0x40000, CC 0x80000, RUN 2^63
EFI_DESCRIPTORS = [(3, 0, 1, 0xF), (7, 1 << 32, 1 << 20, 0x50008), (6, 0x3FEF4000, 0x84, 0x80000000000AF011),
                   (15, 0x40000000, 1, 0x8000000000100001), (14, 0x50000000, 0, 0)]

EFI_NAMES = {0: "Reserved", 1: "Loader Code", 2: "Loader Data", 3: "Boot Code", 4: "Boot Data", 5: "Runtime Code", 6: "Runtime Data",
             7: "Conventional", 9: "ACPI Reclaim", 10: "ACPI Mem NVS", 11: "MMIO"}


def descriptors_of(path):
    """The two numbers in the header of a file, then type, address, pages and attributes of each descriptor."""
    data = bytes_of(path)
    stride = struct.unpack_from("<I", data)[0]
    return [struct.unpack_from("<II", data)] + [struct.unpack_from("<I4xQ8xQQ", data, place) for place in range(8, len(data), stride)]


def efi_line(index, kind, first, pages, attributes):
    """The kernel's line for a descriptor with attributes that are only among the first four and RUN."""
    marks = "".join(f"|{name if attributes & bit else '':2}" for name, bit in (("WB", 8), ("WT", 4), ("WC", 2), ("UC", 1)))
    run = "RUN" if attributes >> 63 else ""
    return (f"[    0.000000] efi: mem{index:02}: [{EFI_NAMES[kind]:12}|{run:3}{'|  ' * 8}|   {marks}] "
            f"range=[{first:#018x}-{first + 4096 * pages - 1:#018x}] ({pages >> 8}MB)\n")


class Logs(Case):
    """Inputs made from a kernel's log."""

    def test_round_trips(self):
        """A zero page made from the kernel's lines for a machine gives the map that the kernel logged, and the same owners."""
        trips = 0
        for name in machines():
            log = log_of(name)
            if log is None:
                continue
            trips += 1
            cmdline = ["--cmdline", "cmdline"] if has_file(name, "cmdline") else []
            extension = ["--e820ext", "e820ext.bin"] if has_file(name, "e820ext.bin") else []
            status, out, _ = tool("zp-from-log", "--output", "zp", "--e820ext", "ext", given=log, folder=self.work)
            self.check(f"zp-from-log {name}", (status, out), (0, ""))
            made = ["--e820ext", self.path("ext"), self.path("zp")]
            self.check(f"zp-from-log {name}: map", program(example(name), "--report", "map", *cmdline, *made),
                       text_of(example(name, "map.txt")))
            self.check(f"zp-from-log {name}: owners", program(example(name), "--report", "owners", *cmdline, *made),
                       program(example(name), "--report", "owners", *cmdline, *extension, "zp.bin"))
        self.check(f"zp-from-log: {trips} round trips, at least 30", trips >= 30, True)

    def test_logs(self):
        """Accepted forms of logs and lists, and refused ones."""
        plain = log_of("q35-1g")
        tool("zp-from-log", "--output", "plain", given=plain, folder=self.work)
        page = bytes_of(self.path("plain"))
        forms = {
            "journalctl": "".join(re.sub(r"^\[.*?\]", "Nov 27 22:41:01 host kernel:", line) + "\n" for line in plain.splitlines()),
            "a serial console": plain.replace("\n", "\r\n"),
            "blanks at ends": plain.replace("\n", " \t\n"),
            "colours": re.sub(r"^(\[.*?\])", "\x1b[32m\\1\x1b[0m", plain, flags=re.MULTILINE).replace("\n", "\x1b[0m\n"),
            "no time stamps": re.sub(r"^\[.*?\] ", "", plain, flags=re.MULTILINE),
            "two boots": log_of("pc-128m") + plain,
        }
        for what, log in forms.items():
            status, out, err = tool("zp-from-log", "--output", "zp", "-", given=log, folder=self.work)
            self.check(f"zp-from-log, {what}", (status, out, bytes_of(self.path("zp")) == page), (0, "", True))
            self.check(f"zp-from-log, {what}: said", err, "zp-from-log: the log has 2 boots: the last is taken\n" if "two" in what else "")
        listed = "# by hand\n0x100000 0x7ee0000 usable\n\n0x7fe0000 128K 2\n1T 4K ACPI NVS\n2T 1 type 9\n3T 1M persistent (type 12)\n"
        listed += "4T 2M unusable\n5T 0x10K persistent (type 7)\n6T 4K soft reserved\n"
        status, _, err = tool("zp-from-log", "--output", "zp", given=listed, folder=self.work)
        self.check("zp-from-log, a list", status, 0)
        self.has("zp-from-log, a list", err, "no initrd")
        data = bytes_of(self.path("zp"))
        self.check("zp-from-log, a list: entries", (data[0x1E8], entries_of(data, 8, 0x2D0)),
                   (8, [(0x100000, 0x7EE0000, 1), (0x7FE0000, 0x20000, 2), (1 << 40, 4096, 4), (2 << 40, 1, 9), (3 << 40, 1 << 20, 12),
                        (4 << 40, 2 << 20, 5), (5 << 40, 16384, 7), (6 << 40, 4096, 0xEFFFFFFF)]))
        status, _, err = tool("zp-from-log", "--output", "zp", "--initrd", "0x1ffe40000,1M", given=listed, folder=self.work)
        data = bytes_of(self.path("zp"))
        self.check("zp-from-log --initrd", (status, err, data[0x210] != 0, [struct.unpack_from("<I", data, place)[0]
                                                                      for place in (0x0C0, 0x218, 0x0C4, 0x21C)]),
              (0, "", True, [1, 0xFFE40000, 0, 0x100000]))

    def test_refused(self):
        """Logs and lists that give no zero page: status 1, one line, no file."""
        plain = log_of("q35-1g")
        headless = "".join(line for line in (log_of("pc-128m") + plain).splitlines(True) if "provided" not in line)
        many = "".join(f"{index * 2}M 1M usable\n" for index in range(129))
        refused = {"129 entries and no extension": many, "one entry": "0 1M usable\n", "nothing": "", "another text": "hello\n",
                   "an unknown type": plain + "BIOS-e820: [mem 0x0004000000000000-0x0004000000000fff] strange\n",
                   "too far": "0 1M 1\n0xfffffffffffff000 4K 1\n", "two boots without heads": headless}
        for what, log in refused.items():
            status, out, err = tool("zp-from-log", "--output", "none", "--no-initrd", given=log, folder=self.work)
            self.check(f"zp-from-log, {what}", (status, out, err.count("\n"), os.path.exists(self.path("none"))), (1, "", 1, False))
        self.check("zp-from-log, no output", tool("zp-from-log", given=plain)[:2], (2, ""))
        self.check("zp-from-log, a bad initrd", tool("zp-from-log", "--output", "zp", "--initrd", "1M", given=plain, folder=self.work)[0], 2)

    def test_efi(self):
        """Descriptors in a log, with the names that the kernel prints; those of the machines with UEFI firmware, line by line; refused ones."""
        page = log_of("q35-1g")
        words = ("--output", "zp", "--no-initrd", "--efi", "efi")
        status, out, err = tool("zp-from-log", *words, given=page + EFI_LOG, folder=self.work)
        self.check("zp-from-log --efi", (status, out, err, descriptors_of(self.path("efi"))), (0, "", "", [(48, 1), *EFI_DESCRIPTORS]))
        for name in ("ovmf-512m", "ovmf-4g-numa2"):
            listed = descriptors_of(example(name, "efi.bin"))[1:]
            log = page + "".join(efi_line(index, *one) for index, one in enumerate(listed))
            tool("zp-from-log", *words, given=log, folder=self.work)
            self.check(f"zp-from-log --efi, {name}", bytes_of(self.path("efi")) == bytes_of(example(name, "efi.bin")), True)
        refused = {"no descriptors": "", "one is missing": EFI_LOG.replace("mem03", "mem05"),
                   "an unknown type": EFI_LOG.replace("Boot Code", "Boot Mode"),
                   "an unknown attribute": EFI_LOG.replace("|MR|", "|QQ|")}
        for what, log in refused.items():
            status, out, err = tool("zp-from-log", "--output", "none", "--no-initrd", "--efi", "none", given=page + log, folder=self.work)
            self.check(f"zp-from-log --efi, {what}", (status, out, err.count("\n"), os.path.exists(self.path("none"))), (1, "", 1, False))


if __name__ == "__main__":
    unittest.main()
