#!/usr/bin/env python3
"""definitions.py [--write | --table [WORD..]]: compares docs/DEFINITIONS.md with the files of
definitions (crates/*/specs/*.antt) from which the page is made.

The page has a section for each storey and a heading for each crate, in the order of the tables of
docs/ARCHITECTURE.md. Below them each file of definitions has an entry: its name, the comment at
its head, and the names of its public definitions. Within a crate a file comes after those that it
uses. The crates of worked cases aren't on the page. The text above the first section is written
by hand; --write keeps it.

Without an option it prints a line for each difference between the page and what --write would
write, and how many files and definitions there are. --write writes the page. --table prints one
definition per line: file, name and the comment above it. If words follow, it prints only the lines
that contain one of them.
"""

import glob
import os
import re
import sys
import textwrap

sys.dont_write_bytecode = True

from documents import TOP, end, read

PAGE = "docs/DEFINITIONS.md"
DEFINED = re.compile(r"^\s*(?:(?:abbrev|unfoldable) pub|pub (?:record|data)) (\S+)")
WIDTH = 100


def definitions_of(text):
    """The definitions of a file in their order, each name with the comment above it. The empty
    name has the comment at the head of the file."""
    found, comment = {"": ""}, []
    for line in text.split("\n"):
        match = DEFINED.match(line)
        if line.strip().startswith("--"):
            comment.append(line.strip().lstrip("- "))
        elif match:
            found.setdefault(match.group(1), " ".join(comment))
            comment = []
        elif not line.strip() or line.startswith("use "):
            found[""] = found[""] or " ".join(comment)
            comment = []
    return found


def storeys():
    """The storeys of docs/ARCHITECTURE.md, each with its crates, in the order of its tables."""
    found = []
    for line in read("docs/ARCHITECTURE.md").partition("\n## The crates\n")[2].split("\n"):
        if line.startswith("## "):
            break
        storey = re.fullmatch(r"\*\*(.+)\*\*", line)
        row = re.match(r"\| `(\w+)` \|", line)
        if storey:
            found.append((storey.group(1), []))
        elif row:
            found[-1][1].append(row.group(1))
    return found


def files_of(crate):
    """The files of definitions of a crate with their texts, each after those that it uses, and
    otherwise in the order of the crate's list."""
    texts = {os.path.basename(path)[: -len(".antt")]: read(path)
             for path in glob.glob(f"{TOP}/crates/{crate}/specs/*.antt")}
    order = re.findall(r"^pub mod (\w+)$", texts.pop("Lib", ""), re.MULTILINE)
    placed = {}

    def place(name):
        """Places a file after those that it uses."""
        if name in texts and name not in placed:
            text = texts.pop(name)
            for used in re.findall(rf"^use Rattle\.{crate}\.specs\.(\w+)\b", text, re.MULTILINE):
                place(used)
            placed[name] = text

    for name in order + sorted(texts):
        place(name)
    return placed


def entry(file, found):
    """The lines of a file's entry."""
    names = ", ".join(f"`{name}`" for name in found if name)
    defined = f"Defines {names}." if names else "It has laws and no definitions."
    said = textwrap.wrap(f"- **`{file}`**. {found['']}", WIDTH, subsequent_indent="  ",
                         break_long_words=False, break_on_hyphens=False)
    return said + textwrap.wrap(defined, WIDTH, initial_indent="  ", subsequent_indent="  ",
                                break_long_words=False, break_on_hyphens=False)


def page_of(top, files):
    """The page: the text above the first section, and the entries of the files by crate."""
    lines = [top.rstrip("\n"), ""]
    for storey, crates in storeys():
        lines += [f"## {storey}", ""]
        for crate in crates:
            entries = [entry(f"{crate}/{name}", found) for name, found in files[crate].items()]
            if entries:
                lines += [f"### {crate}", "", *(line for one in entries for line in one), ""]
    return "\n".join(lines)


def differences(page, wanted):
    """One message for each line that only one of the two pages has."""
    has, made = page.split("\n"), wanted.split("\n")
    wrong = [f"{PAGE}: tests/definitions.py --write would drop: {line}"
             for line in has if line not in set(made)]
    wrong += [f"{PAGE}: tests/definitions.py --write would add: {line}"
              for line in made if line not in set(has)]
    return wrong or ([f"{PAGE}: its lines aren't in the order that tests/definitions.py writes"]
                     if has != made else [])


def print_table(files, words):
    """Prints one line per definition; if there are words, only the lines that contain one."""
    for crate, found in files.items():
        for file, name, comment in ((f"{crate}/{file}", name, comment)
                                    for file, defined in found.items()
                                    for name, comment in defined.items()):
            line = f"{file}\t{name}\t{comment}"
            if not words or any(word in line for word in words):
                print(line)


def main():
    crates = [os.path.basename(path) for path in sorted(glob.glob(f"{TOP}/crates/*"))]
    files = {crate: {name: definitions_of(text) for name, text in files_of(crate).items()}
             for crate in crates if not crate.endswith("_cases")}
    if "--table" in sys.argv[1:]:
        print_table(files, [word for word in sys.argv[1:] if word != "--table"])
        return 0
    page = read(PAGE)
    shown = [crate for _, crates in storeys() for crate in crates]
    wrong = [f"docs/ARCHITECTURE.md: a crate that isn't there: {crate}"
             for crate in shown if crate not in files]
    wrong += [f"docs/ARCHITECTURE.md: no row for {crate}" for crate in files if crate not in shown]
    wrong += [f"{crate}/{name}: no comment at the head of the file"
              for crate, found in files.items() for name in found if not found[name][""]]
    if not wrong:
        wanted = page_of(page.partition("\n## ")[0], files)
        if "--write" in sys.argv[1:]:
            with open(os.path.join(TOP, PAGE), "w", encoding="utf-8") as file:
                file.write(wanted)
            page = wanted
        wrong = differences(page, wanted)
    defined = [found for crate in files.values() for found in crate.values()]
    return end(f"definitions: {len(defined)} files, {sum(len(found) - 1 for found in defined)} "
               "definitions", wrong)


if __name__ == "__main__":
    sys.exit(main())
