#!/usr/bin/env python3
"""copies.py [CRATE..]: prints the lemmas that exist more than once.

Prints each statement of crates/*/proofs that another file has too, whatever its variables are called. The other file is one of a crate, or, if the lemma
is public there, one of the toolchain's library std or of a port that crates.txt names. With CRATE.., it prints only statements that one of these crates
has. Below each statement is one line per lemma: the crate and the file, or the path in the toolchain, and the lemma's name. Answers are left out, and
statements of less than 40 characters.

A row is a place to look, not a fault. To share a private lemma, make it `pub` and its file `pub mod` in proofs/Lib.antt. A crate can't use a lemma of a
crate above it. Run it by hand; it takes some ten seconds. The status is 0.
"""

import glob
import os
import re
import subprocess
import sys

TOP = os.path.abspath(os.path.join(os.path.dirname(os.path.abspath(__file__)), "..", ".."))
LEAST = 40
HEAD = re.compile(r"(?:(?:pub|abbrev|unfoldable) )*([^\s:(){}]+) : ")
BOUND = re.compile(r"[({]([^(){}:]+) : |λ ([^.(){}]+)\.")
TOKEN = re.compile(r"[^\s(){}\[\],.;:→λ]+|[(){}\[\],.;:→λ]")


def toolchain():
    """The folder of the toolchain's libraries, which is next to the page that `rt doc` names."""
    page = subprocess.run(["rt", "doc"], capture_output=True, text=True, check=False, cwd=TOP).stdout.split("\n", 1)[0]
    return os.path.join(os.path.dirname(page), "rattle")


def ports():
    """The toolchain's crates that crates.txt names."""
    with open(f"{TOP}/crates.txt", encoding="utf-8") as file:
        rows = [line.split("#", 1)[0].partition(":") for line in file if ":" in line]
    own = {name.split()[0] for name, _, _ in rows}
    return {word for _, _, below in rows for word in below.split()} - own


def files():
    """The files to look at, each with the name that is printed for it; the toolchain's are in parentheses."""
    for path in glob.glob(f"{TOP}/crates/*/proofs/**/*.antt", recursive=True):
        yield path, os.path.relpath(path, f"{TOP}/crates").replace("/proofs/", "/", 1)
    root = toolchain()
    for library in sorted(ports() | {"std"}):
        for path in glob.glob(f"{root}/{library}/proofs/**/*.antt", recursive=True):
            yield path, f"({os.path.relpath(path, root)})"


def statements(text, hidden):
    """The name and the statement of each lemma of a file. Private lemmas are left out unless `hidden` is true."""
    for part in re.split(r"\n\s*\n", text):
        lines = [line for line in part.split("\n") if not line.lstrip().startswith("--")]
        head = HEAD.match(lines[0]) if lines else None
        if head and not lines[0].startswith("use ") and (hidden or lines[0].startswith("pub ")):
            name = head.group(1)
            told = [lines[0][head.end() :]]
            for line in lines[1:]:
                if line.startswith(("unfolding", f"{name} ")):
                    break
                told.append(line)
            yield name, " ".join(told)


def without_names(statement):
    """The statement with its variables numbered in the order in which they are bound."""
    numbers = {}
    for found in BOUND.finditer(statement):
        for name in (found.group(1) or found.group(2)).split():
            numbers.setdefault(name, f"?{len(numbers)}")
    return " ".join(numbers.get(token, token) for token in TOKEN.findall(statement))


def main():
    if sys.argv[1:] and sys.argv[1] in ("-h", "--help"):
        print(__doc__)
        return
    wanted = {f"{name}/" for name in sys.argv[1:]}
    found = {}
    for path, told in files():
        with open(path, encoding="utf-8") as file:
            for name, statement in statements(file.read(), not told.startswith("(")):
                bare = without_names(statement)
                if len(bare) >= LEAST and not bare.startswith("goal ."):
                    found.setdefault(bare, set()).add((told, name))
    rows = 0
    for bare, places in sorted(found.items()):
        crates = [told for told, _ in places if not told.startswith("(")]
        asked = not wanted or any(told.startswith(tuple(wanted)) for told in crates)
        if crates and asked and len({told for told, _ in places}) > 1:
            rows += 1
            print(bare[:150])
            for told, name in sorted(places):
                print(f"    {told} {name}")
    print(f"{rows} statements exist more than once")


if __name__ == "__main__":
    main()
