"""The part of free-lists that runs inside gdb. It stops a kernel at handover, and reads memblock's
tables and the free lists from its memory.

The environment names the gdb stub (FREE_LISTS_STUB, as `target remote` takes it) and the file
to write (FREE_LISTS_OUTPUT, JSON). Symbols and structures come from the kernel's debug
information. The kernel runs with nokaslr, so that its symbols have the addresses of the link."""

import json
import os
import struct
from typing import Any, Dict, List, Tuple

import gdb

Zone = Tuple[
    int, str, int, int, int, int
]  # node, name, first frame, one past the last, present and managed frames
Block = Tuple[int, str, int, str, int]  # node, zone, order, migrate type, first frame


def value_of(expression: str) -> int:
    """The value of an expression in C that is a number, by the debug information."""
    return int(gdb.parse_and_eval(expression))


def address_of(symbol: str) -> int:
    """The address of a symbol."""
    return value_of(f"(unsigned long)&{symbol}")


def offset_of(kind: str, field: str) -> int:
    """The offset of a field in a structure."""
    return value_of(f"(unsigned long)&((struct {kind} *)0)->{field}")


def size_of(kind: str) -> int:
    """The size of a structure."""
    return value_of(f"sizeof(struct {kind})")


def read(address: int, size: int) -> bytes:
    """Bytes of the kernel's memory."""
    return bytes(gdb.selected_inferior().read_memory(address, size))


def read_long(address: int) -> int:
    """An unsigned long of the kernel's memory."""
    return int.from_bytes(read(address, 8), "little")


def read_text(address: int, size: int) -> str:
    """The string at an address, `size` bytes at most."""
    return read(address, size).split(b"\0")[0].decode("latin-1")


def run_to(address: int) -> None:
    """Lets the kernel run until it reaches this address."""
    stop = gdb.Breakpoint(f"*{address:#x}", type=gdb.BP_HARDWARE_BREAKPOINT, internal=True)
    gdb.execute("continue", to_string=True)
    place = value_of("(unsigned long)$rip")
    stop.delete()
    if place != address:
        raise gdb.GdbError(f"the kernel stopped at {place:#x}, and not at {address:#x}")


def read_table(name: str) -> Dict[str, Any]:
    """One of memblock's tables: its place, its room, and each record's base, size, flags and node."""
    at = address_of("memblock")
    count, room, regions = (
        read_long(at + offset_of("memblock", f"{name}.{field}"))
        for field in ("cnt", "max", "regions")
    )
    size = size_of("memblock_region")
    raw = read(regions, count * size)
    initial = regions == address_of(f"memblock_{name}_init_regions")
    return {
        "place": None if initial else regions - read_long(address_of("page_offset_base")),
        "room": room,
        "records": [struct.unpack_from("<QQIi", raw, number * size) for number in range(count)],
    }


def node_count() -> int:
    """The greatest number of nodes of this build, MAX_NUMNODES."""
    return value_of("sizeof('numa.c'::node_data)") // 8


class Layout:
    """The offsets of the fields of nodes, zones, lists and page structures, from the debug
    information."""

    def __init__(self) -> None:
        self.zone, self.page, self.area = size_of("zone"), size_of("page"), size_of("free_area")
        self.orders = value_of("sizeof(((struct zone *)0)->free_area)") // self.area
        self.kinds = value_of("sizeof(((struct free_area *)0)->free_list)") // 16
        self.zones = value_of("sizeof(((struct pglist_data *)0)->node_zones)") // self.zone
        self.node_zones, self.deferred = (
            offset_of("pglist_data", field) for field in ("node_zones", "first_deferred_pfn")
        )
        self.name, self.areas = offset_of("zone", "name"), offset_of("zone", "free_area")
        self.counts = [
            offset_of("zone", field)
            for field in ("zone_start_pfn", "spanned_pages", "present_pages", "managed_pages")
        ]
        self.count = offset_of("free_area", "nr_free")
        self.links, self.order = offset_of("page", "lru"), offset_of("page", "private")
        # the top bits of a page's flags are its node, and below that its zone (page-flags-layout.h);
        # each has the number of bits that its greatest value needs
        self.node_bits = (node_count() - 1).bit_length()
        self.zone_bits = (self.zones - 1).bit_length()
        self.map = read_long(address_of("vmemmap_base"))
        kinds = {
            field.enumval: str(field.name)
            for field in reversed(gdb.lookup_type("enum migratetype").fields())
        }
        self.kind_names = [
            kinds[number].replace("MIGRATE_", "").lower() for number in range(self.kinds)
        ]


def read_list(
    layout: Layout, head: int, order: int, node: int, zone: int, faults: List[str]
) -> List[int]:
    """The numbers of the first frames of the blocks of one list, from its head. A page that doesn't
    match the list is described in `faults`."""
    found: List[int] = []
    before, at = head, read_long(head)
    while at not in (head, 0):  # 0: the kernel doesn't initialize the lists of a zone without frames
        page = at - layout.links
        raw = read(page, layout.page)
        after, back = struct.unpack_from("<QQ", raw, layout.links)
        flags = struct.unpack_from("<Q", raw, 0)[0]
        frame, rest = divmod(page - layout.map, layout.page)
        own_node = flags >> 64 - layout.node_bits
        own_zone = flags >> 64 - layout.node_bits - layout.zone_bits & (1 << layout.zone_bits) - 1
        own_order = struct.unpack_from("<Q", raw, layout.order)[0]
        if rest or back != before or (own_node, own_zone, own_order) != (node, zone, order):
            faults.append(
                f"frame {frame} in a list of node {node}, zone {zone}, order {order}: "
                f"node {own_node}, zone {own_zone}, "
                f"order {own_order}, link {'right' if back == before else 'wrong'}"
            )
        found.append(frame)
        before, at = at, after
    return found


def read_zone(
    layout: Layout, zone: int, node: int, number: int, faults: List[str]
) -> Tuple[Zone, List[Block]]:
    """A zone's numbers, and its blocks list by list."""
    name = read_text(read_long(zone + layout.name), 16)
    start, spanned, present, managed = (read_long(zone + place) for place in layout.counts)
    blocks: List[Block] = []
    for order in range(layout.orders):
        area = zone + layout.areas + order * layout.area
        seen = 0
        for kind in range(layout.kinds):
            frames = read_list(layout, area + 16 * kind, order, node, number, faults)
            blocks += [(node, name, order, layout.kind_names[kind], frame) for frame in frames]
            seen += len(frames)
        if seen != read_long(area + layout.count):
            faults.append(
                f"node {node}, zone {name}, order {order}: {seen} blocks in the lists, "
                "and nr_free has another number"
            )
    return (node, name, start, start + spanned, present, managed), blocks


def read_lists(faults: List[str]) -> Tuple[List[Zone], Dict[int, int], List[Block]]:
    """Each node's zones that have frames, its first deferred frame if it has one, and all
    blocks."""
    layout = Layout()
    zones: List[Zone] = []
    deferred: Dict[int, int] = {}
    blocks: List[Block] = []
    for node in range(node_count()):
        data = read_long(address_of("node_data") + 8 * node)
        if not data:
            continue
        first = read_long(data + layout.deferred)
        if first != (1 << 64) - 1:
            deferred[node] = first
        for number in range(layout.zones):
            zone, found = read_zone(
                layout, data + layout.node_zones + number * layout.zone, node, number, faults
            )
            blocks += found
            if zone[4]:
                zones.append(zone)
    return zones, deferred, blocks


def main() -> None:
    """Writes the kernel's state at the entry of memblock_free_all, at its return, and after deferred
    pages have been set up."""
    for setting in (
        "pagination off",
        "confirm off",
        "max-value-size unlimited",
        "tcp connect-timeout 60",
        "remotetimeout 60",
    ):
        gdb.execute("set " + setting)
    gdb.execute("target remote " + os.environ["FREE_LISTS_STUB"])
    run_to(value_of("(unsigned long)memblock_free_all"))
    faults: List[str] = []
    told: Dict[str, Any] = {
        "version": read_text(address_of("linux_banner"), 512).strip(),
        "memory": read_table("memory"),
        "reserved": read_table("reserved"),
    }
    run_to(read_long(value_of("(unsigned long)$rsp")))
    told["zones"], told["deferred"], told["blocks"] = read_lists(faults)
    sums: Dict[Tuple[int, str], int] = {}
    for node, name, order, _, _ in told["blocks"]:
        sums[node, name] = sums.get((node, name), 0) + (1 << order)
    faults += [
        f"node {zone[0]}, zone {zone[1]}: {zone[5]} managed frames, "
        f"and {sums.get(zone[:2], 0)} in its lists"
        for zone in told["zones"]
        if sums.get(zone[:2], 0) != zone[5]
    ]
    # page_alloc_init_late calls buffer_init after the last deferred page; the console has the whole
    # log by then
    run_to(value_of("(unsigned long)buffer_init"))
    told["late"] = read_lists(faults)[2] if told["deferred"] else []
    told["faults"] = faults
    with open(os.environ["FREE_LISTS_OUTPUT"], "w", encoding="ascii") as file:
        json.dump(told, file)
    gdb.execute("detach")


main()
