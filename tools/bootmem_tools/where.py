"""bootmem-where: prints what the reports of bootmem say about one address."""

from __future__ import annotations

from typing import Iterator, NoReturn

from bootmem_tools import as_linux, linux_claims, ranges, reports, runner, tool

# The lines of an answer, each a word and a text.
Sayings = Iterator[tuple[str, str]]
Spans = list[reports.Span]

NAME = "bootmem-where"
WANTED = ["map", "memory", "owners", "journal", "tables", "nodes", "zones", "sections", "blocks"]
USAGE = """bootmem-where [--frame] ADDRESS [FILE]
       bootmem-where [--frame] [--as-linux] [--program P] ADDRESS -- WORDS"""
ABOUT = """Prints what the reports say about one address: its frame, the entry of the map, whether it is memory, who owns it and the step of the
journal that claimed it, node, zone, section with the place of its map and of the frame's page structure, and
free block."""
EPILOG = f"""ADDRESS is hexadecimal or decimal, with K, M, G or T after it or without. After -- come the words of the
program, without --report; it is run with --report {','.join(WANTED)}.

With --as-linux the boot is that of Linux 6.1 (bootmem-linux), and a line `early` has what it claims there early, with the
kernel function that does.

Otherwise the tool reads the text of these reports from FILE, or from standard input if there is none or it is -; it says nothing of a
report that isn't there. A page structure has 64 bytes: the map of a section, of 2 MiB, has 32,768 of them.

{runner.FINDING_AS_LINUX}

exit status: 0; 1 if the reports couldn't be had; 2 for words that aren't those above.

examples:
  bootmem-where 0x1000000 -- --srat srat.bin --kernel 16M,52M zp.bin
  bootmem-where --frame 4096 reports.txt"""


def read_words(words: list[str]) -> tuple[int, reports.Texts, list[linux_claims.Claim]]:
    """Returns the address, the reports that the words ask for, and the early claims of their
    boot."""
    own, program_words = tool.split_words(words)
    parser = tool.new_parser(NAME, USAGE, ABOUT, EPILOG)
    parser.add_argument("address", metavar="ADDRESS", help="the address: 0x100000, 1048576, 1M")
    parser.add_argument("file", metavar="FILE", nargs="?", help="a text of reports; - is standard input")
    parser.add_argument("--frame", action="store_true", help="ADDRESS is the number of a frame of 4,096 bytes")
    as_linux.add_flag(parser)
    runner.add_program(parser)
    given = tool.parse_own(parser, own, program_words)
    if given.as_linux and program_words is None:
        parser.error("--as-linux without words after --")
    address = ranges.parse_size(given.address)
    if address is not None and given.frame:
        address *= ranges.FRAME
    if address is None or address > ranges.TOP:
        parser.error(f"{given.address}: no address: 0x.. or decimal, with K, M, G or T or without, below 2^64")
    if program_words is None:
        return address, reports.read_reports(given.file or "-", behind=True), []
    if given.file is not None:
        parser.error("a FILE and words after -- at once")
    return address, *as_linux.run_for(NAME, given.program, WANTED, program_words, given.as_linux)


def last_step(steps: Spans, address: int) -> reports.Span | None:
    """Returns the newest claim or free in the journal whose range has the address, or None. It
    decides the owner."""
    deciding = [step for step in ranges.at(steps, address) if step.kind in ("claim", "free")]
    return deciding[-1] if deciding else None


def owner_lines(owners: Spans | None, steps: Spans | None, tables: Spans | None, address: int) -> Sayings:
    """Yields the lines on the address's owner, the step that claimed it, and the table of memblock
    there."""
    holder = ranges.at(owners or [], address)
    if owners is not None:
        yield "owner", f"{holder[0].name} {ranges.range_text(*holder[0][:2])}" if holder else "none"
    if steps is not None:
        step = last_step(steps, address)
        yield ("freed" if step and step.kind == "free" else "claimed"), (
            f"journal {step.line}" if step else "never")
    for table in ranges.at(tables or [], address):
        record = (address - table.first) // 24
        used = "" if record < int(table.fields["records"]) else ", not in use"
        yield "table", f"{table.fields['table']} of memblock, record {record}{used}"


def place_lines(found: dict[str, Spans], address: int) -> Sayings:
    """Yields the lines on node, zone and section. A span may have holes, so addresses without memory
    have these lines, too."""
    if "nodes" in found:
        node = ranges.at(found["nodes"], address)
        yield "node", f"{node[-1].fields['node']} {ranges.range_text(*node[-1][:2])}" if node else "none"
    if "zones" in found:
        zones = ranges.at(found["zones"], address)
        node = ranges.at(found.get("nodes", []), address)
        own = [zone for zone in zones if node and zone.fields["node"] == node[-1].fields["node"]]
        for zone in own or zones:
            yield "zone", (f"{zone.fields['zone']} of node {zone.fields['node']}, frames {zone.fields['start_frame']} to "
                           f"{int(zone.fields['end_frame']) - 1}")
        if not zones:
            yield "zone", "none"
    if "sections" in found:
        section = ranges.at(found["sections"], address)
        yield "section", section_text(section[0], address) if section else (
            f"{address // ranges.SECTION}, which has no memory")


def section_text(section: reports.Span, address: int) -> str:
    """Returns a text with a section's number and node, and the places of its map and of the page
    structure of the address's frame."""
    place = int(section.fields["map"], 16)
    page = place + (address - section.first) // ranges.FRAME * 64
    return (f"{section.fields['section']} of node {section.fields['node']}, map at {ranges.hex_text(place)}, "
            f"page structure at {ranges.hex_text(page)}")


def answer_lines(address: int, found: dict[str, Spans]) -> Sayings:
    """Yields the lines on what the reports say about the address."""
    yield "address", f"{ranges.hex_text(address)} ({ranges.size_text(address)}), frame {address // ranges.FRAME}"
    if "map" in found:
        entry = ranges.at(found["map"], address)
        yield "map", f"{entry[0].name} {ranges.range_text(*entry[0][:2])}" if entry else "none"
    if "memory" in found:
        memory = ranges.at(found["memory"], address)
        yield "memory", ranges.range_text(*memory[0][:2]) if memory else "none"
    yield from owner_lines(found.get("owners"), found.get("journal"), found.get("tables"), address)
    yield from place_lines(found, address)
    if "blocks" in found:
        block = ranges.at(found["blocks"], address)
        yield "block", (f"{block[0].name} {ranges.range_text(*block[0][:2])}, free" if block else "none: not free")


def main(words: list[str]) -> int:
    """Prints the lines on the address."""
    address, texts, claims = read_words(words)
    found = {name: reports.spans(name, lines) for name, lines in texts.items() if name in WANTED}
    if not found:
        raise tool.Trouble(f"none of the reports {', '.join(WANTED)} is there")
    for word, text in answer_lines(address, found):
        print(f"{word:<8} {text}")
    early = linux_claims.by_owner(claims)
    for holder in ranges.at(found["owners"], address) if early else []:
        if holder.name in early:
            one = early[holder.name]
            place = ranges.range_text(*holder[:2])
            print(f"{'early':<8} {one.what} {place}, claimed by {one.rule}")
    return 0


def command() -> NoReturn:
    """Runs the tool as a command."""
    tool.run_tool(NAME, main)


if __name__ == "__main__":
    command()
