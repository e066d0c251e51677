"""Makes the early claims of Linux 6.1: what it claims before its crash area and bootmem doesn't. They
are computed from a machine's inputs, in the kernel's order, as lines of a claims file of bootmem61.

Each claim follows from the inputs. What these don't show is left out, and a note says so. A line
gives the size, the alignment and the window of an allocation, and the program finds the place.
Addresses are in bytes, and a range is its first byte and the byte past its last."""

from __future__ import annotations

import re
import struct
from typing import Iterator, NamedTuple, Sequence

from bootmem_tools import inputs, linux_log
from bootmem_tools.direct_map import DirectMap, Free, Span, Table, down, is_within, united, up
from bootmem_tools.ranges import FRAME, MIB, parse_size

BRK = 17 * FRAME  # the part of brk in use when it is claimed: page tables, and a page for DMI's texts
END_AFTER_BRK = 48 * FRAME  # from the image's end to _end: the size of brk
LOG_LEAST, LOG_MOST = (
    128 << 10,
    1 << 31,
)  # bytes of the built-in log buffer, and of the longest one (LOG_BUF_LEN_MAX)
LOG_ALIGN = 8
LOG_PARTS = ("the log buffer", "its descriptors", "its records' information")
DESCRIPTOR, INFO = (
    24,
    88,
)  # bytes of a record's descriptor and its information, one for each 32 bytes of the buffer
SETUP_DATA, EFI_INFO, LOAD_FLAGS = 0x250, 0x1C0, 0x211  # offsets in the zero page
KASLR_FLAG = 2
BOOT_SERVICES, LOADER_DATA, CONVENTIONAL = (3, 4), 2, 7  # types of EFI descriptors
SPECIFIC_PURPOSE, RUNTIME = 0x40000, 1 << 63  # EFI_MEMORY_SP, EFI_MEMORY_RUNTIME
MOVES = "relocate_initrd"  # the kernel function that moves an initrd that isn't mapped whole
FIRST_ID = 4_000_000_000  # the first ID of early claims; lower IDs are left to the user's script
LONGEST = 1 << 20  # bytes of a claims file
FEW = 100  # up to this number of claims, no table of 128 records grows


class Claim(NamedTuple):
    """A range that the kernel claims: its first byte and the byte past its last, what it is, and the
    kernel function that claims it.

    If `align` isn't 0, the kernel searches for the place from `low` on and below `high`, and the
    range is what this module's search finds. If `is_freed`, the kernel frees the range at once."""

    first: int
    end: int
    what: str
    rule: str
    align: int = 0
    low: int = 0
    high: int = 0
    is_freed: bool = False

    def lines(self, number: int) -> list[str]:
        """Returns the lines of a claims file that make the claim under this ID."""
        if not self.align:
            lines = [f"reserve {number} {self.first:#x} {self.end - self.first:#x}"]
            return lines + [f"free {number}"] * self.is_freed
        low = f" min {self.low:#x}" if self.low else ""
        window = f"{low} max {self.high:#x}"
        return [f"alloc {number} {self.end - self.first} {self.align}{window}"]


class Descriptor(NamedTuple):
    """A descriptor of an EFI memory map: its type, its range and its attributes."""

    kind: int
    first: int
    end: int
    attributes: int


class Machine(NamedTuple):
    """The facts about a machine that the rules of the claims use.

    `memory` is memblock's memory after the trim, `end` the end of the last RAM (max_pfn), `soft` the
    soft reserved memory, `image` the kernel's image, `line` the command line, and `largest` the
    largest page of the direct map. `domains` is the number of nodes if the kernel keeps the distances
    of a SLIT, else 0. `told` is what a log has."""

    page: bytes
    line: str
    memory: list[Span]
    end: int
    soft: list[Span]
    image: Span
    brk: int
    efi: list[Descriptor]
    extension: int
    largest: int
    has_five_levels: bool
    domains: int
    told: linux_log.Told


class Outcome(NamedTuple):
    """The claims in the kernel's order, the memory that is free after them, and the end of the mapped
    memory."""

    claims: list[Claim]
    free: Free
    mapped: int


def file_lines(claims: Sequence[Claim]) -> list[tuple[str, Claim]]:
    """Returns the lines of the claims file, each with the claim that it makes."""
    return [
        (line, claim)
        for number, claim in enumerate(claims, FIRST_ID)
        for line in claim.lines(number)
    ]


def by_owner(claims: Sequence[Claim]) -> dict[str, Claim]:
    """Returns the claims by the names of their owners in the program's reports."""
    return {f"script {number}": claim for number, claim in enumerate(claims, FIRST_ID)}


def named_owners(lines: Sequence[str], claims: Sequence[Claim]) -> list[str]:
    """Returns the lines of the report `owners`, with the purpose of each early claim in place of its
    ID."""
    early = by_owner(claims)

    def named(match: re.Match[str]) -> str:
        """Returns what the owner is."""
        return early[match.group()].what if match.group() in early else match.group()

    return [re.sub(r"script \d+$", named, line) for line in lines]


def read_descriptors(data: bytes) -> list[Descriptor]:
    """Returns the descriptors of an EFI memory map, or none if its header is malformed."""
    if len(data) < 8 or struct.unpack_from("<I", data)[0] < 40:
        return []
    stride, found = struct.unpack_from("<I", data)[0], []
    for place in range(8, len(data) - stride + 1, stride):
        kind, first, pages, attributes = struct.unpack_from("<I4xQ8xQQ", data, place)
        found.append(Descriptor(kind, first, first + pages * FRAME, attributes))
    return found


def initrd_of(page: bytes) -> Span | None:
    """Returns the initrd in whole frames, or None (reserve_initrd)."""
    low, size_low = struct.unpack_from("<II", page, inputs.RAMDISK)
    high, size_high = struct.unpack_from("<II", page, inputs.HIGH_RAMDISK)
    first, size = high << 32 | low, size_high << 32 | size_low
    if not page[inputs.LOADER_TYPE] or not first or not size:
        return None
    return down(first, FRAME), up(first + size, FRAME)


def move_initrd(page: bytes, place: int) -> bytes:
    """Returns the zero page with the initrd at this place."""
    moved = bytearray(page)
    struct.pack_into("<I", moved, inputs.RAMDISK, place & 0xFFFFFFFF)
    struct.pack_into("<I", moved, inputs.HIGH_RAMDISK, place >> 32)
    return bytes(moved)


def has_setup_data(page: bytes) -> bool:
    """Returns whether the zero page has the address of a node of setup_data."""
    return any(page[SETUP_DATA : SETUP_DATA + 8])


def setup_data(machine: Machine, initrd: Span | None) -> Iterator[Claim]:
    """Yields the claims of setup_data's nodes: all nodes if there is a log, else the first one, whose
    address the zero page has."""
    first: int = struct.unpack_from("<Q", machine.page, SETUP_DATA)[0]
    rule = "memblock_x86_reserve_range_setup_data"
    nodes = list(linux_log.nodes_of(machine.told.pieces, first)) if first else []
    if first and not any(node[0] == first for node in nodes):
        nodes = [first_node(machine, initrd, first), *nodes]
    for node in nodes:
        yield Claim(*node, "setup_data", rule)


def first_node(machine: Machine, initrd: Span | None, first: int) -> Span:
    """Returns the range of the first node of setup_data. The zero page has only its address.

    The length is that of the extension's file, if there is one. Otherwise the node is taken to reach
    to the end of EFI's descriptor of loader data, or to an initrd there; without such a descriptor,
    it is only a header of 16 bytes."""
    end = first + (machine.extension or 16)
    for one in machine.efi:
        if one.kind == LOADER_DATA and one.first <= first < one.end and not machine.extension:
            end = min([one.end] + [initrd[0] for _ in "x" if initrd and initrd[0] > first])
            break
    return first, end


def efi_map(machine: Machine) -> Iterator[Claim]:
    """Yields the claim of EFI's own memory map, whose address and size the zero page has (struct
    efi_info)."""
    signature, low, size, high = struct.unpack_from("<4s12xII4xI", machine.page, EFI_INFO)
    if signature in (b"EL64", b"EL32") and (low or high) and size:
        first = high << 32 | low
        yield Claim(first, first + size, "EFI's memory map", "efi_memblock_x86_reserve_range")


def efi_tables(machine: Machine) -> Iterator[Claim]:
    """Yields the claims of EFI's tables in a log. It has only their addresses, so each is a frame."""
    for name, place in machine.told.efi:
        rule = "efi_memattr_init" if name == "MEMATTR" else "efi_tpm_eventlog_init"
        yield Claim(place, down(place, FRAME) + FRAME, f"EFI's table {name}", rule)


def boot_services(machine: Machine, held: Sequence[Span]) -> Iterator[Claim]:
    """Yields the claims of the descriptors of boot services in which nothing is claimed yet."""
    taken, owned = Free([(0, 1 << 64)]), owned_services(machine)
    for first, end in held:
        taken.claim(first, end)
    for one in machine.efi:
        if one.kind not in BOOT_SERVICES or (one.first, one.end) in owned:
            continue
        if is_within(taken.spans, one.first, one.end):
            taken.claim(one.first, one.end)
            yield Claim(
                one.first, one.end, f"boot services, type {one.kind}", "efi_reserve_boot_services"
            )


def owned_services(machine: Machine) -> list[Span]:
    """Returns the descriptors of boot services that had an earlier claim inside, by the map of a
    running kernel. The kernel gave these the attribute of runtime services, and leaves the rest of
    them free (efi_reserve_boot_services).

    A part of a descriptor that a driver keeps has this attribute, too (efi_arch_mem_reserve). It
    overlaps or touches the rest of its descriptor, which lacks the attribute. Without such rests in
    the map the two cases can't be distinguished, and none is returned. Of a descriptor of one frame
    nothing stays free."""
    services = [one for one in machine.efi if one.kind in BOOT_SERVICES]
    others = [one for one in services if not one.attributes & RUNTIME]
    whole = [
        one
        for one in services
        if one.attributes & RUNTIME
        and one.end - one.first > FRAME
        and is_within(machine.memory, one.first, one.end)
        and not any(is_rest(other, one) for other in others)
    ]
    return [(one.first, one.end) for one in whole] if others else []


def is_rest(other: Descriptor, part: Descriptor) -> bool:
    """Returns whether a descriptor could contain a part, or be the rest of the part's descriptor."""
    return (
        other.kind == part.kind
        and other.first <= part.end
        and part.first <= other.end
        and (other.first, other.end) != (part.first, part.end)
    )


def log_sizes(line: str) -> list[int]:
    """Returns the sizes of a longer log buffer and of its two companions, or an empty list
    (log_buf_len_update, setup_log_buf)."""
    length = 0
    for value in re.findall(r"(?:^|\s)log_buf_len=([0-9A-Za-z]+)", line):
        size = min(parse_size(value) or 0, LOG_MOST)
        size = 1 << (size - 1).bit_length() if size else 0
        length = size if size > LOG_LEAST else length
    records = length >> 5
    return [length, DESCRIPTOR * records, INFO * records] if length else []


def has_kaslr(page: bytes) -> bool:
    """Returns whether the decompressor chose places at random (KASLR_FLAG of the boot
    parameters)."""
    return bool(page[LOAD_FLAGS] & KASLR_FLAG)


def own_ranges(machine: Machine, initrd: Span | None) -> list[Span]:
    """Returns the ranges that bootmem claims by itself before node data, beginning with the first
    MiB."""
    return [(0, MIB), machine.image, *machine.soft] + ([initrd] if initrd else [])


def fixed_claims(machine: Machine, initrd: Span | None) -> list[Claim]:
    """Returns the claims of ranges whose place is fixed before the kernel searches for any place."""
    claims = [*setup_data(machine, initrd), *efi_map(machine), *efi_tables(machine)]
    claims.append(Claim(machine.image[1], machine.image[1] + machine.brk, "brk", "reserve_brk"))
    # the kernel reads boot services before it claims all of the first MiB
    early = [(0, 64 << 10), *own_ranges(machine, initrd)[1:]]
    early += [(one.first, one.end) for one in claims]
    # From the top down, so that a table that grows at the top of memory lies in no later range.
    return claims + list(boot_services(machine, early))[::-1]


def early_claims(machine: Machine) -> Outcome:
    """Returns what the kernel claims before node data, as far as the inputs show it.

    # Errors
    Exhausted if no memory is left for a page table.
    """
    initrd = initrd_of(machine.page)
    claims = fixed_claims(machine, initrd)
    free = Free(machine.memory)
    for first, end in own_ranges(machine, initrd) + [(one.first, one.end) for one in claims]:
        free.claim(first, end)
    brk, is_random = machine.image[1], has_kaslr(machine.page)
    tables = DirectMap(
        machine.memory, free, brk, machine.largest, machine.has_five_levels, is_random
    )
    tables.make(machine.end)
    claims += table_claims(tables.pages)
    for size, what in zip(log_sizes(machine.line), LOG_PARTS):
        claims += placed(free, size, LOG_ALIGN, tables.high, what, "setup_log_buf")
    if initrd:
        claims += move_from(machine, free, tables, initrd)
    for name, span in machine.told.acpi:
        free.claim(*span)
        claims.append(Claim(*span, f"the ACPI table {name}", "acpi_reserve_initial_tables"))
    if machine.domains:
        size, what = machine.domains**2, "the distances of the SLIT"
        claims += placed(free, size, FRAME, tables.high, what, "numa_alloc_distance")
    return Outcome(claims, free, tables.high)


def table_claims(pages: Sequence[Table]) -> Iterator[Claim]:
    """Yields the claims of page tables. Adjacent tables from one window become one claim, since a
    search for all of them at once finds the same frames."""
    rest = list(pages)
    while rest:
        top, window = rest[0].place, rest[0][1:]
        count = 1
        while rest[count : count + 1] == [Table(top - count * FRAME, *window)]:
            count += 1
        what = "a page table" if count == 1 else f"{count} page tables"
        first, what = rest[count - 1].place, f"{what} of the direct map"
        yield Claim(first, top + FRAME, what, "alloc_low_pages", FRAME, *window)
        del rest[:count]


def move_from(
    machine: Machine, free: Free, tables: DirectMap, initrd: Span
) -> Iterator[Claim]:
    """Yields the claims for an initrd that isn't mapped whole: its new place, and its old one, which
    is freed (reserve_initrd, relocate_initrd). Yields none if it stays or there is no place."""
    if is_within(united(tables.mapped), *initrd):  # pfn_range_is_mapped
        return
    what = "the initrd's new place"
    moved = list(placed(free, initrd[1] - initrd[0], FRAME, tables.high, what, MOVES))
    if not moved:
        return
    yield from moved
    near = [one for one in machine.memory if one[0] < initrd[1] and initrd[0] < one[1]]
    free.release((max(low, initrd[0]), min(high, initrd[1])) for low, high in near)
    yield Claim(*initrd, "the initrd's old place", MOVES, is_freed=True)


def placed(free: Free, size: int, align: int, high: int, what: str, rule: str) -> Iterator[Claim]:
    """Yields the claim of an allocation from the top down, or none if there is no place."""
    place = free.take(size, align, 0, high)
    if place:
        yield Claim(place, place + size, what, rule, align, 0, high)
