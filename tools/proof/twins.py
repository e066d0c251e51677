#!/usr/bin/env python3
"""twins.py [--promised | --said FILE] [CRATE..]: prints which goal refuses each wrong body.

It applies each crates/CRATE/must-fail/NAME.edit to a copy of the repository, checks the edited
crate, and compares the goals that the prover couldn't prove with the clause that the first line of
the edit pins. If there is a NAME.right.md of the same form, that is a right (correct) body of the
same shape, and the crate must be proved with it. Otherwise the committed body serves as the right
one, if the edit keeps all names. The last line counts the wrong bodies by what refuses them:

- the pinned clause: a goal of the pinned function and of that clause isn't proved;
- a loop of the pinned function: its invariant, on which the clause depends, isn't proved;
- another goal;
- a limit of the prover, which gives no verdict;
- names alone: no goal is open, but a proof file names something that the edit removed;
- no try: the edit can't be applied or compiled;
- nothing, and proved: the crate is proved with the edit.

The status is 0 if no wrong body counts under one of the last three, each one that a promise names
(tests/pins.py) is refused by its clause, and no right body is refused. --promised tries only the
wrong bodies that a promise names.

It runs `rt check` some hundred times, for ten to forty seconds each. These checks reuse the work
that each crate's out/ keeps, so run `rt all check` first. The gate tries one crate, which depends
on no other.

With --said it tries nothing, but reads FILE, the output of `rt ci`. This shows for each wrong body
only the beginning of the first thing that the prover couldn't prove. A wrong body that isn't
refused there by its pinned clause may be refused by it further on: try its crate by itself.
"""

import glob
import os
import re
import shutil
import subprocess
import sys
import tempfile
from collections import Counter
from typing import NamedTuple

sys.dont_write_bytecode = True
TOP = os.path.abspath(os.path.join(os.path.dirname(os.path.abspath(__file__)), "..", ".."))
sys.path.insert(0, f"{TOP}/tests")

from pins import FORM, PROMISED, read  # noqa: E402

# What refuses a wrong body. The last three say nothing about the contract.
PINNED = "the pinned clause"
LOOP = "a loop of the pinned function"
OTHER = "another goal"
LIMIT = "a limit of the prover"
NAMES = "names alone"
UNTRIED = "no try"
PROVED = "nothing, and proved"
KINDS = (PINNED, LOOP, OTHER, LIMIT, NAMES, UNTRIED, PROVED)

# an error at an answer or a lemma: the folder of its function (if any), its name, the error
ANSWERED = re.compile(
    r"^(?:note: )?(?:\./)?proofs/(?:(\S+)/)?\w+\.antt:\d+:\d+: error: "
    r"(?:\d+ declarations? that depends? on )?`([^`]+)`(.*)"
)
# a goal without an answer that the search didn't prove; `rt ci` may cut its name short
OPEN = re.compile(r"^(?:note: )?(?:\./)?(src/\S+\.rt):(\d+):\d+: .*\(`([\w-]+)(`\))?")
# the error if a proof file uses a name that the edit removed
GONE = re.compile(r"has no field|is not in scope|has no `|was not admitted")
# the gate's line on a wrong body: crate, name, "only ..." if that alone refuses it, and an error
TRIED = re.compile(
    r"^(?:rt: )?must-fail (\w+)/(\S+)\.edit: refused, as it must be"
    r"(?: \((only [^()]*)\))?(?:: (.*))?$",
    re.M,
)
BLOCK = re.compile(r"(?:impl|trait)(?:<.*?>)? (?:.* for )?(\w+)")
FUNCTION = re.compile(
    r"\s*(?:pub(?:\(crate\))? )?(?:const )?(?:unsafe )?(?:extern \"C\" )?fn (\w+)"
)


class Pin(NamedTuple):
    """What an edit pins: a clause of a function or a method, or the invariant of a type."""

    of_type: str
    function: str
    clause: str


class Goal(NamedTuple):
    """A goal that isn't proved, and the function that it belongs to."""

    of_type: str
    function: str
    name: str
    is_cut: bool = False


def pin_of(edit: str) -> Pin:
    """What an edit pins."""
    match = FORM.match(read(edit).split("\n")[0])
    if not match:
        sys.exit(f"twins.py: {edit} pins nothing (tests/pins.py)")
    return Pin(match.group(1) or "", match.group(2), match.group(3))


def pairs(path: str) -> list[tuple[str, str, str]]:
    """The replacements of an edit in order: the file, the old text and the new one."""
    file, old, found = "", "", []
    for line in read(path).split("\n"):
        kind, _, text = line.partition(": ")
        if kind == "file":
            file = text
        elif kind == "old":
            old = text
        elif kind == "new" or line == "new:":
            found.append((file, old, text))
    return found


def check_with(folder: str, edit: str) -> tuple[int, str]:
    """The status of `rt check` in the folder with the edit applied, and its output."""
    before: dict[str, str] = {}
    try:
        for file, old, new in pairs(edit):
            path = f"{folder}/{file}"
            text = read(path)
            before.setdefault(path, text)
            if text.count(old) != 1:
                return 2, f"what {edit} replaces isn't exactly once in {file}"
            write(path, text.replace(old, new))
        ran = subprocess.run(
            ["rt", "check"],
            cwd=folder,
            stdin=subprocess.DEVNULL,
            stdout=subprocess.PIPE,
            stderr=subprocess.STDOUT,
            encoding="utf-8",
            errors="replace",
            check=False,
        )
        return ran.returncode, ran.stdout
    finally:
        for path, text in before.items():
            write(path, text)


def write(path: str, text: str) -> None:
    """Replaces a file."""
    with open(path, "w", encoding="utf-8") as file:
        file.write(text)


def function_at(folder: str, file: str, line: int) -> tuple[str, str]:
    """The type, or "" if it is no method, and the name of the function at a line of src/."""
    lines = read(f"{folder}/{file}").split("\n")
    while lines[line - 1].lstrip().startswith("#["):
        line += 1
    of_type, name = "", ""
    for text in lines[:line]:
        if block := BLOCK.match(text):
            of_type = block.group(1)
        elif text.startswith("}"):
            of_type = ""
        if function := FUNCTION.match(text):
            name = function.group(1)
    return of_type, name


def goals_in(said: str, folder: str) -> list[Goal]:
    """The goals that the prover couldn't prove, except those whose answer uses a removed name."""
    found = []
    for line in said.split("\n"):
        answer, left = ANSWERED.match(line), OPEN.match(line)
        if answer and not GONE.search(answer.group(3)):
            place = (answer.group(1) or "").split("/")
            found.append(Goal(place[-2] if len(place) > 1 else "", place[-1], answer.group(2)))
        elif left:
            of_type, name = function_at(folder, left.group(1), int(left.group(2)))
            found.append(Goal(of_type, name, left.group(3), not left.group(4)))
    return found


def is_of_function(goal: Goal, pin: Pin) -> bool:
    """Whether a goal belongs to the pinned function. A trait's impl has a folder `TYPETRAIT`."""
    return goal.function == pin.function and goal.of_type.startswith(pin.of_type)


def is_of_clause(goal: Goal, pin: Pin) -> bool:
    """Whether a goal belongs to the pinned clause, which is one on the function's result, or the
    type's invariant after one of its methods."""
    if pin.clause == "invariant":
        return goal.name.startswith("invariant_of-") and goal.of_type.startswith(pin.function)
    if not is_of_function(goal, pin) or not goal.name.startswith("returns"):
        return False
    if pin.clause in ("1", "from_gives"):
        return "-clause-" not in goal.name and not goal.is_cut
    return goal.name.endswith(f"-clause-{pin.clause}")


def refused_by(goals: list[Goal], said: str, pin: Pin) -> str:
    """What refuses a wrong body, by the open goals and the prover's output."""
    if any(is_of_clause(goal, pin) for goal in goals):
        return PINNED
    if any(is_of_function(goal, pin) and goal.name.startswith("loop-") for goal in goals):
        return LOOP
    if goals:
        return OTHER
    errors = [line for line in said.split("\n") if ANSWERED.match(line)]
    return NAMES if any(GONE.search(line) for line in errors) else UNTRIED


def tried(folder: str, edit: str) -> str:
    """Checks the wrong body and returns what refuses it."""
    status, said = check_with(folder, edit)
    if status == 0:
        return PROVED
    if status == 3:
        return LIMIT
    return refused_by(goals_in(said, folder), said, pin_of(edit))


def told(folder: str, edit: str, only: str, text: str) -> str:
    """What refuses the wrong body by the gate's line: its "only ...", if any, else its error."""
    if only:
        return LIMIT if "limit" in only else NAMES
    return refused_by(goals_in(text, folder), text, pin_of(edit))


def is_wrong(crate: str, name: str, how: str) -> bool:
    """Whether HOW says nothing about the contract, or isn't the clause that a promise needs."""
    if f"{crate}/{name}" in PROMISED:
        return how != PINNED
    return how in (NAMES, UNTRIED, PROVED)


def told_in(path: str) -> int:
    """Prints what refuses each wrong body by the gate's output in this file. Returns the status."""
    counts: Counter[str] = Counter()
    for crate, name, only, text in sorted(set(TRIED.findall(read(path)))):
        folder = f"{TOP}/crates/{crate}"
        edit = f"{folder}/must-fail/{name}.edit"
        if os.path.exists(edit):
            how = told(folder, edit, only, text)
            counts[how] += 1
            if how != PINNED:
                print(f"{crate}/{name}: {how}: {text[:200]}")
    met = ", ".join(f"{kind} {counts[kind]}" for kind in KINDS[:-1])
    print(f"twins: the gate's first refusals of {sum(counts.values())} wrong bodies: {met}")
    return 1 if counts[NAMES] else 0


def edits_of(folder: str, promised: bool) -> list[str]:
    """The wrong bodies of a crate; with `promised`, only those that a promise names."""
    crate = os.path.basename(folder)
    found = sorted(glob.glob(f"{folder}/must-fail/*.edit"))
    if not promised:
        return found
    return [edit for edit in found if f"{crate}/{os.path.basename(edit)[:-5]}" in PROMISED]


def try_all(crates: list[str], promised: bool) -> int:
    """Tries the crates' wrong bodies, and their right bodies, in a copy. Returns the status."""
    counts: Counter[str] = Counter()
    right = wrong = 0
    with tempfile.TemporaryDirectory(prefix="bootmem-twins-") as room:
        shutil.copytree(f"{TOP}/crates", f"{room}/crates", symlinks=True)
        for name in ("crates.txt", "HANDLES"):
            shutil.copy(f"{TOP}/{name}", room)
        for crate in crates:
            folder = f"{room}/crates/{crate}"
            for edit in edits_of(folder, promised):
                name = os.path.basename(edit)[: -len(".edit")]
                how = tried(folder, edit)
                counts[how] += 1
                wrong += is_wrong(crate, name, how)
                twin = f"{folder}/must-fail/{name}.right.md"
                if os.path.exists(twin) and check_with(folder, twin)[0] != 0:
                    right += 1
                    how += "; the right body is refused, too"
                print(f"{crate}/{name}: {how}", flush=True)
    refused = ", ".join(f"{kind} {counts[kind]}" for kind in KINDS)
    print(f"twins: refused by {refused}; {right} right bodies refused, {wrong} show too little")
    return 1 if right or wrong else 0


def main() -> int:
    """Reads the command line and returns the status."""
    words = sys.argv[1:]
    if words[:1] == ["--said"]:
        return told_in(words[1])
    promised = words[:1] == ["--promised"]
    lines = [line for line in read(f"{TOP}/crates.txt").split("\n") if not line.startswith("#")]
    listed = [line.split()[0].rstrip(":") for line in lines if ":" in line]
    return try_all(words[promised:] or listed, promised)


if __name__ == "__main__":
    sys.exit(main())
