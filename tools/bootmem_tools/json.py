"""bootmem-json: reports of bootmem as one JSON object."""

from __future__ import annotations

import json
from typing import NoReturn

from bootmem_tools import as_linux, objects, reports, runner, tool
from bootmem_tools.words import BOOTMEM61, REPORTS

NAME = "bootmem-json"
USAGE = """bootmem-json [--compact] [--report NAME] [FILE]
       bootmem-json [--compact] [--report LIST] [--as-linux] [--program P]
                    -- WORDS"""
ABOUT = """Turns reports of bootmem into one JSON object with a member for each report, by its name, in the order in which they
appear. FORMATS.md of the documents has the form ("Reports as JSON"). An address or a size in bytes is a string,
as in the reports, since many readers of JSON cut numbers above 2^53; frames, records and the like are numbers."""
EPILOG = f"""After -- come the words of the program, without --report, which is LIST, or else all reports except script, blocks, pages and pagesinfo.

With --as-linux the reports are those of a boot as Linux 6.1 makes it (bootmem-linux).

Otherwise the tool reads the text of reports from FILE, or from standard input if there is none or it is -. A text of one report
without its line `== NAME` is known by its first line; --report NAME names it if that may be another's (reserved, which
looks like memory, pages like script, pagesinfo like buddyinfo, or a text without a line).

{runner.FINDING_AS_LINUX}

exit status: 0; 1 if the reports couldn't be had; 2 for words that aren't those above.

examples:
  bootmem-json --report crash,zones -- --kernel 16M,52M zp.bin
  bootmem --report summary zp.bin | bootmem-json --compact"""

WANTED = [name for name in REPORTS if name not in ("script", "blocks", "pages", "pagesinfo")]


def read_words(words: list[str]) -> tuple[bool, reports.Texts]:
    """Returns whether the output is one line, and the reports."""
    own, program_words = tool.split_words(words)
    parser = tool.new_parser(NAME, USAGE, ABOUT, EPILOG)
    parser.add_argument("file", metavar="FILE", nargs="?", help="a text of reports; - is standard input")
    parser.add_argument("--report", metavar="LIST", help="the reports to ask for, or the name of the one in FILE")
    parser.add_argument("--compact", action="store_true", help="one line, without blanks")
    as_linux.add_flag(parser)
    runner.add_program(parser)
    given = tool.parse_own(parser, own, program_words)
    if given.as_linux and program_words is None:
        parser.error("--as-linux without words after --")
    names = given.report.split(",") if given.report is not None else None
    for name in names or []:
        if name not in BOOTMEM61.reports:
            parser.error(f"{name}: no report: one of {', '.join(BOOTMEM61.reports)}")
    if program_words is not None:
        if given.file is not None:
            parser.error("a FILE and words after -- at once")
        wanted = names or WANTED
        texts, _ = as_linux.run_for(NAME, given.program, wanted, program_words, given.as_linux)
        return given.compact, texts
    if names is None:
        return given.compact, reports.read_reports(given.file or "-", behind=True)
    lines = tool.read_text(given.file or "-", behind=True).splitlines()
    if len(names) > 1 or any(line.startswith("== ") for line in lines):
        parser.error("--report names one report whose text has no line `== NAME`")
    return given.compact, {names[0]: lines}


def main(words: list[str]) -> int:
    """Prints the object."""
    compact, texts = read_words(words)
    reports.refuse_empty_map(texts, "the reports")
    found = objects.as_object(texts)
    print(json.dumps(found, separators=(",", ":")) if compact else json.dumps(found, indent=2))
    return 0


def command() -> NoReturn:
    """Runs the tool as a command."""
    tool.run_tool(NAME, main)


if __name__ == "__main__":
    command()
