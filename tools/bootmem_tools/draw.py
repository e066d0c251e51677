"""bootmem-draw: a picture of reports of bootmem, side by side over one axis of addresses."""

from __future__ import annotations

import argparse
import collections
import math
import shutil
import textwrap
from typing import Iterator, Mapping, NoReturn, Sequence
from xml.sax.saxutils import escape

from bootmem_tools import as_linux, fold, linux_claims, page, ranges, reports, runner, tool
from bootmem_tools.columns import DRAWN, STRUCTURES, Column, Row, columns_of

NAME = "bootmem-draw"
MOST = 3990  # pixels of a picture's height
USAGE = """bootmem-draw [--text] [--title TEXT] [--from A] [--to B]
                    [--output FILE] [FILE]
       bootmem-draw [--text] [--title TEXT] [--from A] [--to B]
                    [--output FILE] [--as-linux] [--program P] -- WORDS
       bootmem-draw --html FILE [--title TEXT] [--as-linux] [--program P]
                    [A [B]] [-- WORDS]"""
ABOUT = f"""Draws reports of bootmem side by side over one axis of addresses, the lowest on top, as an SVG picture or, with
--text, as a table for a terminal. Gaps of the map are folded: heights grow with the logarithm of the size.
Neighbouring blocks of one order, node and zone are one row with their number. The owner `map N` is drawn as the page
structures of section N, which it is.

A picture is at most {MOST:,} pixels high: rows for which there is no room are folded into rows with their number. --from and
--to draw a part of memory."""
EPILOG = f"""After -- come the words of the program, without --report; the tool runs it with --report {','.join(DRAWN)}.

With --as-linux the boot is drawn as Linux 6.1 makes it (bootmem-linux), with what it claims early among the owners.

Otherwise the tool reads the text of reports from FILE, or from standard input if there is none or it is -; those of
{', '.join(DRAWN)} that are there are drawn. In a viewer that shows tool tips each row shows its exact range.

--html writes a page of the same columns, which needs no network: it zooms into a range, shows the exact range and owner
of the address under the pointer, and finds an address. Of two texts A and B, or of A and a run for WORDS, it shows both
boots side by side; what is the same in both is pale, and a list has the changes.

A table keeps within $COLUMNS, or else the terminal's width, or else {tool.WIDTH}: columns without room there are in another
table below.

{runner.FINDING_AS_LINUX}

exit status: 0; 1 if the reports couldn't be had or the picture not be written; 2 for words that aren't those above.

examples:
  bootmem-draw --output machine.svg -- --kernel 16M,52M zp.bin
  bootmem --report map,zones zp.bin | bootmem-draw --text
  bootmem-draw --from 4G --to 5G -- --kernel 16M,52M zp.bin > part.svg
  bootmem-draw --html machine.html -- --kernel 16M,52M zp.bin
  bootmem-draw --html changed.html old.txt new.txt"""

Boots = list[tuple[str, reports.Texts]]  # each with its name


def read_words(words: list[str]) -> tuple[argparse.Namespace, Boots]:
    """Returns the parsed words, and the reports to draw: those of one boot, or of two for a page."""
    own, program_words = tool.split_words(words)
    parser = tool.new_parser(NAME, USAGE, ABOUT, EPILOG)
    parser.add_argument("files", metavar="FILE", nargs="*", help="a text of reports; - is standard input")
    parser.add_argument("--html", metavar="FILE", help="write a page to FILE, also of two boots")
    parser.add_argument("--text", action="store_true", help="a table for a terminal")
    parser.add_argument("--title", metavar="TEXT", help="a line above the picture")
    parser.add_argument("--from", metavar="A", dest="low", help="draw no address below A, such as 4G or 0x100000000")
    parser.add_argument("--to", metavar="B", dest="high", help="draw no address from B on")
    parser.add_argument("--output", metavar="FILE", help="write to FILE; without it to standard output")
    as_linux.add_flag(parser)
    runner.add_program(parser)
    given = tool.parse_own(parser, own, program_words)
    if given.as_linux and program_words is None:
        parser.error("--as-linux without words after --")
    if given.html is not None and (given.text or given.output is not None):
        parser.error("--html beside --text or --output")
    read_range(given, parser)
    most = 2 if given.html is not None else 1
    if len(given.files) + (program_words is not None) > most:
        parser.error(f"more than {most} of FILE and words after --")
    if given.files.count("-") > 1:
        parser.error("two texts from standard input")
    tool.refuse_over([path for path in (given.html, given.output) if path is not None], [*given.files, *(program_words or [])])
    named = given.files or (["-"] if program_words is None else [])
    boots = [(tool.shown_name(file), reports.read_reports(file, behind=True)) for file in named]
    if program_words is not None:
        found, claims = as_linux.run_for(NAME, given.program, DRAWN, program_words, given.as_linux)
        found["owners"] = linux_claims.named_owners(found["owners"], claims)
        boots.append((f"{as_linux.LINUX if given.as_linux else 'bootmem'} {' '.join(program_words)}", found))
    return given, boots


def read_range(given: argparse.Namespace, parser: tool.Parser) -> None:
    """Reads the addresses of --from and --to."""
    if given.html is not None and (given.low is not None or given.high is not None):
        parser.error("--html beside --from or --to: the page zooms itself")
    low, high = (address_of(parser, name, text, missing) for name, text, missing in
                 (("--from", given.low, 0), ("--to", given.high, ranges.TOP + 1)))
    if low >= high:
        parser.error("--from isn't below --to")
    given.low, given.high = low, high


def address_of(parser: tool.Parser, name: str, text: str | None, missing: int) -> int:
    """Returns the address that an option names, or `missing` without it."""
    if text is None:
        return missing
    address = ranges.parse_size(text)
    if address is None:
        parser.error(f"{name} {text}: no address like 4G or 0x100000000")
    return address


# The picture's measures, in pixels.
LETTER = 6.7     # width of a letter of 11 pixels in a wide font
DIGIT = 6.1      # width of a letter of 10 pixels in a font of fixed width
PADDING = 6
BETWEEN = 8      # space between two columns
MARGIN = 14
LINE = 12        # least distance of two addresses of the axis
ROW = 17         # height of a row with its text
HEAD = 22        # height of the heads of the columns
AGAIN = 420      # a tall row has its text about every so many pixels
TALL = 1200      # a taller picture has the heads of its columns at the bottom, too

STYLE = """text { font: 11px "DejaVu Sans", Verdana, "Segoe UI", Helvetica, Arial, sans-serif; fill: #1c1c1c }
.address { font: 10px "DejaVu Sans Mono", Menlo, Consolas, "Liberation Mono", monospace; fill: #555 }
.head { font-weight: bold } .title { font-size: 14px; font-weight: bold }
.gap { font-style: italic; fill: #777 } .end { text-anchor: end }"""


def heights(columns: Sequence[Column]) -> dict[int, int]:
    """Returns the place of each end of a row, in pixels below the first one. Each row and each
    address has room for its text."""
    rows = [row for column in columns for lane in column.lanes for row in lane]
    by_end: dict[int, list[Row]] = collections.defaultdict(list)
    for row in rows:
        by_end[row.last + 1].append(row)
    ends = sorted({row.first for row in rows} | set(by_end))
    place = {ends[0]: 0}
    for before, end in zip(ends, ends[1:]):
        wanted: list[float] = [place[before] + LINE]
        for row in by_end[end]:
            more = 0 if row.colour is None else 0.7 * max(0, math.log2((end - row.first) / ranges.FRAME))
            wanted.append(place[row.first] + ROW + more)
        place[end] = round(max(wanted))
    return place


def lane_width(lane: Sequence[Row], head: str) -> int:
    """Returns the width that the longest text of a lane needs."""
    longest = max([len(row.name) + len(size_of(row)) + 2 for row in lane] + [len(head) + 1])
    return math.ceil(longest * LETTER + 2 * PADDING)


def size_of(row: Row) -> str:
    """Returns the text of a row's size."""
    return ranges.size_text(row.size)


def text_at(x: float, y: float, text: str, kind: str = "") -> str:
    """Returns an SVG text in one of the classes of STYLE."""
    return f'<text x="{x}" y="{y}"{f" class={chr(34)}{kind}{chr(34)}" if kind else ""}>{escape(text)}</text>'


def draw_row(row: Row, x: int, top: int, bottom: int, width: int) -> Iterator[str]:
    """Yields the lines of one row of the picture."""
    times = max(1, round((bottom - top) / AGAIN))
    look = 'fill="none" stroke="#bbb" stroke-dasharray="3 3"' if row.colour is None else f'fill="{row.colour}" stroke="#8c8c8c"'
    kind = "gap" if row.colour is None else ""
    yield (f'<g><title>{escape(row.tip)}</title><rect x="{x + .5}" y="{top + .5}" width="{width - 1}" '
           f'height="{bottom - top}" {look}/>')
    for place in range(times):
        middle = top + (bottom - top) * (2 * place + 1) / (2 * times) + 4
        yield text_at(x + PADDING, middle, row.name, kind)
        size = text_at(x + width - PADDING, middle, size_of(row), "gap end" if kind else "end")
        yield size + ("</g>" if place == times - 1 else "")


def height_of(columns: Sequence[Column]) -> int:
    """Returns the height of all rows of the picture."""
    return max(heights(columns).values())


def draw_columns(columns: Sequence[Column], place: Mapping[int, int], x: int, top: int, end: int) -> tuple[list[str], int]:
    """Returns the lines of the columns from x on, and where the last column ends. Each has its head above it, and also below `end`
    unless that is 0."""
    body: list[str] = []
    for column in columns:
        body += [text_at(x + PADDING, y, column.head, "head") for y in (top - 8, end) if y]
        for lane in column.lanes:
            width = lane_width(lane, column.head)
            for row in lane:
                body += draw_row(row, x, top + place[row.first], top + place[row.last + 1], width)
            x += width
        x += BETWEEN
    return body, x - BETWEEN


def draw(columns: Sequence[Column], title: str | None) -> str:
    """Returns the text of the SVG picture, which is at most MOST pixels high."""
    top = MARGIN + (24 if title else 0) + HEAD
    columns = fold.folded(columns, height_of, MOST - top - HEAD - MARGIN)
    place = heights(columns)
    axis = math.ceil(max(len(f"{end:#x}") for end in place) * DIGIT)
    bottom = top + max(place.values())
    end = bottom + HEAD - 4 if bottom > TALL else 0
    body, right = draw_columns(columns, place, MARGIN + axis + 8, top, end)
    width, height = right + MARGIN, max(bottom, end) + MARGIN
    lines = [f'<svg xmlns="http://www.w3.org/2000/svg" width="{width}" height="{height}" viewBox="0 0 {width} {height}">',
             f"<title>{escape(title or 'reports of bootmem')}</title>", f"<style>{STYLE}</style>",
             f'<rect width="{width}" height="{height}" fill="#fff"/>']
    if title:
        lines.append(text_at(MARGIN, MARGIN + 12, title, "title"))
    for address, y in place.items():
        lines.append(f'<path d="M{MARGIN + axis + 3} {top + y}.5H{width - MARGIN}" stroke="#e6e6e6"/>')
        lines.append(text_at(MARGIN + axis, top + y + 4, f"{address:#x}", "address end"))
    return "\n".join(lines + body + ["</svg>", ""])


def cell_of(row: Row, first: int) -> str:
    """Returns the cell of the table for a row at the address `first`."""
    name = row.name.replace("\u00d7", "x").replace(STRUCTURES, "page structures ")
    return f"{name} {size_of(row)}" if row.first == first else "|"


def table_lines(lanes: Sequence[tuple[str, list[Row]]]) -> list[str]:
    """Returns the lines of a table of lanes, each with its column's head. There is one line for each
    address at which a row begins or ends."""
    before = [""] + [head for head, _ in lanes]
    lines = [["address"] + ["" if head == left else head for (head, _), left in zip(lanes, before)]]
    after = 0
    for first, last, found in ranges.sweep(*(lane for _, lane in lanes)):
        lines.append([f"{first:#x}"] + [cell_of(rows[0], first) if rows else "" for rows in found])
        after = last + 1
    lines.append([f"{after:#x}"])
    widths = [max(len(line[place]) for line in lines if place < len(line)) for place in range(len(lines[0]))]
    return ["  ".join([line[0].rjust(widths[0])] + [cell.ljust(width) for cell, width in zip(line[1:], widths[1:])]).rstrip()
            for line in lines]


def table(columns: Sequence[Column], title: str | None, width: int) -> str:
    """Returns the text of the tables for a terminal of this width. It makes as few tables as have
    room for all lanes; a line that still doesn't fit is cut."""
    groups: list[list[tuple[str, list[Row]]]] = []
    for lane in [(column.head, lane) for column in columns for lane in column.lanes if lane]:
        if groups and max(map(len, table_lines(groups[-1] + [lane]))) <= width:
            groups[-1].append(lane)
        else:
            groups.append([lane])
    texts = [text if len(text) <= width else text[:width - 2] + ".." for group in groups for text in table_lines(group) + [""]]
    return "\n".join((textwrap.wrap(title, width) if title else []) + texts)


def main(words: list[str]) -> int:
    """Writes the page, the picture or the table."""
    given, boots = read_words(words)
    if not all(any(texts.get(report) for report in DRAWN) for _, texts in boots):
        raise tool.Trouble(f"none of the reports {', '.join(DRAWN)} is there with a line")
    if given.html is not None:
        tool.write_output(page.page(boots, given.title), given.html)
        return 0
    columns = fold.cut(columns_of(boots[0][1]), given.low, given.high - 1)
    if not any(lane for column in columns for lane in column.lanes):
        raise tool.Trouble(f"nothing lies from {given.low:#x} up to {given.high:#x}")
    text = table(columns, given.title, shutil.get_terminal_size((tool.WIDTH, 24)).columns) if given.text else draw(columns, given.title)
    tool.write_output(text, given.output)
    return 0


def command() -> NoReturn:
    """Runs the tool as a command."""
    tool.run_tool(NAME, main)


if __name__ == "__main__":
    command()
