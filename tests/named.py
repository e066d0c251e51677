#!/usr/bin/env python3
"""named.py: checks that everything that the documents name exists: the files of links and of paths
in backquotes, the headings of links and of quoted titles, the targets of `make`, and the functions
and definitions in the documents about proofs.

A path may lack its first folders and the suffix of a source; the path of a definition may also lack
`specs`: `boot_model/Boot` is `crates/boot_model/specs/Boot.antt`. A path that contains a word such
as NAME isn't looked up. Prints a line for each name that doesn't exist, and how many names were
looked up.
"""

import fnmatch
import functools
import glob
import os
import re
import sys

sys.dont_write_bytecode = True

from documents import TOP, end, read

# Files outside the repository: pages of the toolchain, and sources of the kernel.
TOOLCHAIN = {"START-HERE.md", "START.md", "CONTRACTS.md", "SHORTER_PROOFS.md", "LANGUAGE.md", "TESTING.md", "CRATES.md",
             "antt/docs/primer-goals.md", "rattle/logic"}
KERNEL = {"e820.c", "memblock.c", "page_alloc.c", "setup.c", "sparse.c", "srat.c", "numa.c", "mm/numa.c", "mm/numa_memblks.c",
          "kernel/crash_reserve.c", "kernel-parameters.txt"}
# Files of an installation, of a build or of a reader's machine.
ELSEWHERE = {"./bootmem", "./bootmem61", "./bootaudit", "crates/*/out", "libexec/bootmem", "share/bootmem", "proc/", "sys/"}
PATH = re.compile(r"[\w.*-]+(?:/[\w.*-]*)+|[\w*-]+\.(?:antt|json|md|py|rt|sh|txt|c|h)")
# Placeholders in names.
PLACEHOLDER = re.compile(r"NAME|FILE|CRATE|FUNCTION|PREFIX|^[A-Z]/|^X[A-Z]|^t_view$|_$")
# Files that don't use backquotes. There a path begins with a folder of the top, or ends like a source.
PLAIN = ["Makefile", "include/bootmem.h", "bootmem.1", "bootmem.5", "bootaudit.1"]
PLAIN_PATH = re.compile(r"(?<![\w./-])(?:(?:bench|bindings|crates|docs|examples|include|tests|tools)/[\w.*/-]*\w"
                        r"|\w+\.(?:antt|md|py|rt)\b)")
TITLE = re.compile(r'`(?:docs/)?(\w+\.md)`(?: \(|, )"([^"]+)"')
TITLE_FIRST = re.compile(r'"([^"]+)" (?:of|in) `(?:docs/)?(\w+\.md)`')
# Documents in which a name in backquotes is a name of the code.
OF_CODE = {"CONTRIBUTING.md", "docs/ARCHITECTURE.md", "docs/ATTACKS.md", "docs/HEADLINE.md", "docs/PROOF.md", "docs/GLOSSARY.md"}
IDENTIFIER = re.compile(r"[a-z]\w*_\w+|(?:[A-Z][a-z0-9]+){2,}")


def headings(name):
    """The headings of a document."""
    return re.findall(r"^#+ (.*)$", read(name), re.MULTILINE)


def anchor(heading):
    """The part of a link after # that leads to a heading."""
    return re.sub(r"[^\w -]", "", heading.lower()).replace(" ", "-")


@functools.cache
def paths():
    """The paths of all files and folders. Each is also there without its first folders, and without
    the suffix of a source."""
    found = set()
    for folder, folders, files in os.walk(TOP):
        folders[:] = [name for name in folders if name not in ("out", ".git")]
        for name in folders + files:
            parts = os.path.relpath(os.path.join(folder, name), TOP).split("/")
            tails = {"/".join(parts[first:]) for first in range(len(parts))}
            found |= tails | {re.sub(r"\.(antt|py|rt)$", "", tail) for tail in tails}
    return found


def exists(path):
    """Whether a path leads to a file or a folder."""
    crate, _, file = path.rstrip("/").partition("/")
    wanted = [path.rstrip("/"), f"{crate}/specs/{file}"]
    return any(one in paths() or "*" in one and fnmatch.filter(paths(), one) for one in wanted)


@functools.cache
def words_of_sources():
    """All words of the files of code, definitions and proofs, and of the scripts."""
    names = [name for name in paths() if re.match(r"(crates|tools|tests|include)/.*\.(antt|h|py|rt|sh)$", name)]
    return {word for name in names if os.path.isfile(os.path.join(TOP, name)) for word in re.findall(r"\w+", read(name))}


def names_in(document):
    """Each name in a document, and whether it exists."""
    text, folder = read(document), os.path.dirname(document)
    folder += "/" if folder else ""
    prose = re.sub(r"```.*?```|^    .*?$", "", text, flags=re.DOTALL | re.MULTILINE)
    for path, mark in re.findall(r"\]\(([^)#:\s]*)(#[^)\s]*)?\)", prose):
        target = os.path.normpath(folder + path) if path else document
        yield path + mark, os.path.exists(os.path.join(TOP, target)) and (
            not mark or mark[1:] in [anchor(heading) for heading in headings(target)])
    flat = re.sub(r"\s+", " ", prose)
    for file, title in TITLE.findall(flat) + [(file, title) for title, file in TITLE_FIRST.findall(flat)]:
        target = next((root + file for root in ("docs/", "") if os.path.exists(os.path.join(TOP, root + file))), None)
        if file not in TOOLCHAIN:
            yield f'{file}, "{title}"', target is not None and any(head.startswith(title) for head in headings(target))
    for quoted in re.findall(r"`([^`]+)`", flat):
        word = (quoted.split() or [""])[0]
        if PLACEHOLDER.search(word):
            continue
        if PATH.fullmatch(word) and word not in TOOLCHAIN | KERNEL | ELSEWHERE:
            yield word, exists(word)
        elif re.match(r"make [a-z]+$", quoted):
            yield quoted, re.search(rf"^{quoted[5:]}:", read("Makefile"), re.MULTILINE) is not None
        elif document in OF_CODE and IDENTIFIER.fullmatch(quoted):
            yield quoted, quoted in words_of_sources() or exists(quoted)


def main():
    documents = ["README.md", "CONTRIBUTING.md", "bench/README.md", "examples/README.md"]
    documents += sorted(os.path.relpath(path, TOP) for path in glob.glob(os.path.join(TOP, "docs", "*.md")))
    found = [(document, name, there) for document in documents for name, there in names_in(document)]
    found += [(plain, path, path in ELSEWHERE or exists(path)) for plain in PLAIN for path in PLAIN_PATH.findall(read(plain).replace("\\-", "-"))]
    return end(f"named: {len(found)} names", sorted({f"{document}: there is no {name}" for document, name, there in found if not there}))


if __name__ == "__main__":
    sys.exit(main())
