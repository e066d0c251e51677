#!/usr/bin/env python3
"""rooms.py: checks that docs/ARCHITECTURE.md has a row for each crate of crates.txt, exactly once, that
its drawings name each crate, and that no crate uses a crate of a storey above its own.

A row is `| crate | what it is | what the crates above may rest on |`. The drawings above the tables
show the data flow and the storeys. Neither tables nor drawings have the crates of worked cases.
Prints a line for each difference, and how many crates there are.
"""

import re
import sys

sys.dont_write_bytecode = True

from documents import end, read


def main():
    crates = {}
    for line in read("crates.txt").split("\n"):
        name, colon, rest = line.split("#")[0].partition(":")
        if colon and not name.endswith("_cases"):
            crates[name.split()[0]] = set(rest.split())
    text = read("docs/ARCHITECTURE.md")
    rows = {}
    for line in text.split("\n"):
        cells = [cell.strip() for cell in line.strip("|").split("|")]
        name = re.fullmatch(r"`(\w+)`", cells[0]) if len(cells) == 3 else None
        if name and line.startswith("|"):
            rows[name.group(1)] = rows.get(name.group(1), 0) + 1
    text_of_crates = text[text.index("## The crates"):text.index("## Layout of a crate")]
    wrong = [f"{name}: it has {rows.get(name, 0)} rows" for name in crates if rows.get(name, 0) != 1]
    wrong += [f"{name}: there is no such crate" for name in rows if name not in crates and f"| `{name}` |" in text_of_crates]
    drawn = "\n".join(line for line in text[:text.index("## The crates")].split("\n") if line.startswith("    "))
    wrong += [f"{name}: no drawing names it" for name in crates if not re.search(rf"\b{name}\b", drawn)]
    wrong += [f"{name}: it is drawn, and there is no such crate" for name in re.findall(r"\b[a-z]\w*_\w+\b", drawn) if name not in crates]
    storeys = [set(re.findall(r"\b[a-z]\w*\b", line[25:])) & set(crates) for line in drawn[drawn.index("    saved reports"):].split("\n")]
    height = {name: -row for row, names in enumerate(storeys) for name in names}
    wrong += [f"{name}: it uses {other} of a storey above" for name, uses in crates.items() for other in sorted(uses)
              if other in height and name in height and height[other] > height[name]]
    return end(f"rooms: {len(crates)} crates", wrong)


if __name__ == "__main__":
    sys.exit(main())
