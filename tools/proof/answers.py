#!/usr/bin/env python3
"""answers.py [--over GATE] CRATE..: removes the answers that no proof needs, and the lemmas that nothing cites without them.

For each CRATE in turn, it changes the files of this checkout in these steps:

- It removes all answers (`pub GOAL : goal.GOAL` in the files Answers.antt). `rt check --margin`, which searches with half of the usual limits, shows
  which goals are open without them.
- It puts the answers of these goals back, and the answers that those name. It repeats this until the only open goals are those that were open with all
  answers in place. If a function takes over 20 seconds longer in a check from scratch, its answers are put back too.
- It removes what something in the repository cited before and nothing cites now: definitions in Answers.antt, lemmas in proofs/*.antt, and whole files
  with their lines in Lib.antt. Invariants.antt stays.
- `rt tidy` drops unused imports, and the crate is checked from scratch.

It prints, before and after: the lines of answers, the lines of all files of proofs/, and the processor seconds of a check from scratch. A crate that isn't
proved at the start or at the end is left as it was, and the status is 1. Run it by hand in a checkout without uncommitted changes. It makes some six
checks of each crate, two of them from scratch. With --over GATE it checks with `prove.py`, over the libraries that `rt ci` proved in the checkout GATE,
and proves nothing below the crate here.
"""

import glob
import os
import re
import resource
import shutil
import subprocess
import sys
import time

HERE = os.path.dirname(os.path.abspath(__file__))
TOP = os.path.abspath(os.path.join(HERE, "..", ".."))
SLOWER = 20
CHECK = ("check", "--jobs", "1")
NAME = re.compile(r"(?:(?:abbrev|unfoldable|pub) )*(?:ruleset |record |data )?([^\s:]+)(?= |$)")
ANSWER = re.compile(r"pub (\S+) : goal\.")
HEAD = re.compile(r"use |mod |pub mod |module |infix|--|\s")
# lines of `rt check`: a function is done; a goal is open, with its place and name; the search for a function's goals ended
CHECKED = re.compile(r"checked (\S+), \d+ of \d+")
GOAL = re.compile(r"\(`([^`\s]+)`\)")
TRIED = re.compile(r"`search` did not prove ((?:`[^`]+`(?:, )?)+)")
# an error at a place in src/ that names an open goal
AT_BODY = re.compile(r"^src/\S+: error: `([^`]+)`: `search`: no proof", re.M)
ENDED = re.compile(r"(?:fn|impl|struct|enum) (\S+): ")


def read(path):
    with open(path, encoding="utf-8") as file:
        return file.read()


def write(path, text):
    os.makedirs(os.path.dirname(path), exist_ok=True)
    with open(path, "w", encoding="utf-8") as file:
        file.write(text)


def parts_of(text):
    """The parts of a file between empty lines: its imports, and one for each definition."""
    return text.strip("\n").split("\n\n")


def head_of(part):
    return next((line for line in part.split("\n") if not line.startswith("--")), "--")


def name_of(part):
    """The name that a part defines, or None for an import or a comment."""
    return None if HEAD.match(head_of(part)) else NAME.match(head_of(part)).group(1)


def answer_of(part):
    """The goal that a part answers, or None if it is no answer."""
    match = ANSWER.match(head_of(part))
    return match.group(1) if match else None


def faults_in(said):
    """The first ten lines of a check's output that say why a crate isn't proved, or its last ten lines if no line says so."""
    lines = said.strip().split("\n")
    told = [line for line in lines if ": error: " in line or ": not proved" in line or "not proved yet" in line]
    return "\n".join(told[:10] or lines[-10:])


def has_word(word, text):
    return re.search(rf"(?<![\w-]){re.escape(word)}(?![\w-])", text) is not None


def repository():
    """The text of each file that may cite a lemma."""
    patterns = ("*.md", "docs/*.md", "crates/*/must-fail/*", "crates/*/src/**/*.rt", "crates/*/specs/**/*.antt", "crates/*/proofs/**/*.antt")
    return {path: read(path) for pattern in patterns for path in glob.glob(f"{TOP}/{pattern}", recursive=True)}


class Crate:
    """A crate: the text of its files of proofs/ at the start, the parts of its files Answers.antt, and the answers that are kept."""

    def __init__(self, name, gate):
        self.name = name
        self.gate = gate
        self.folder = f"{TOP}/crates/{name}"
        self.before = self.proofs()
        self.parts = {path: parts_of(text) for path, text in self.before.items() if path.endswith("/Answers.antt")}
        self.answers = {(path, answer_of(part)): part for path, parts in self.parts.items() for part in parts if answer_of(part)}
        self.uncited = self.cited_by_nothing()
        self.near = {}
        self.kept = set()

    def proofs(self):
        return {path: read(path) for path in sorted(glob.glob(f"{self.folder}/proofs/**/*.antt", recursive=True))}

    def lines(self):
        counted = {path: text.count("\n") for path, text in self.proofs().items()}
        return sum(count for path, count in counted.items() if path.endswith("/Answers.antt")), sum(counted.values())

    def restore(self):
        for path, text in self.before.items():
            write(path, text)

    def command(self, words):
        """`rt` with these words, or with --over the call of prove.py that does the same over the gate's libraries."""
        if not self.gate:
            return ["rt", *words]
        flags = ["--fix-imports"] if words[0] == "tidy" else [word for word in words[1:] if word not in CHECK]
        return [f"{HERE}/prove.py", self.gate, self.name, "--progress", *flags]

    def run(self, *words):
        """Runs `rt` in the crate's folder. Returns its status, its output, the seconds that each function took, by its file of answers, and the processor
        seconds of the whole run."""
        last, began = time.time(), resource.getrusage(resource.RUSAGE_CHILDREN)
        said, seconds = [], {}
        with subprocess.Popen(self.command(words), cwd=self.folder, stdin=subprocess.DEVNULL, stdout=subprocess.PIPE, stderr=subprocess.STDOUT, text=True,
                              errors="replace") as ran:
            for line in ran.stdout:
                said.append(line)
                done = CHECKED.match(line)
                if done:
                    seconds[self.answers_file(done.group(1))] = time.time() - last
                    last = time.time()
        ended = resource.getrusage(resource.RUSAGE_CHILDREN)
        return ran.returncode, "".join(said), seconds, ended.ru_utime + ended.ru_stime - began.ru_utime - began.ru_stime

    def run_anew(self):
        """Runs a check from scratch, as `run`. A comment with the time is added to lib.rt meanwhile, so that no other checkout's work on the same text is
        reused."""
        if self.gate:
            return self.run(*CHECK, "--anew")
        root = f"{self.folder}/src/lib.rt"
        text = read(root)
        shutil.rmtree(f"{self.folder}/out", ignore_errors=True)
        os.makedirs(f"{self.folder}/out/incremental")
        write(root, f"{text}// {time.time()}\n")
        try:
            return self.run(*CHECK)
        finally:
            write(root, text)

    def answers_file(self, function):
        return f"{self.folder}/proofs/{'/'.join(function.split('::')[1:])}/Answers.antt"

    def module_of(self, path):
        return os.path.relpath(path, f"{self.folder}/proofs")[: -len(".antt")].split("/")

    def open_goals(self, said):
        """The goals that a check reports as open, by the file that their answers belong in."""
        found, goals = {}, set()
        for line in said.split("\n"):
            ended = ENDED.match(line)
            if line.startswith("note: "):
                goals |= set(GOAL.findall(line))
            elif ended:
                goals |= {goal.strip("`") for tried in TRIED.findall(line) for goal in tried.rstrip(", ").split(", ")}
                found.setdefault(self.answers_file(ended.group(1)), set()).update(goals)
                goals = set()
        return found

    def put(self):
        """Writes each Answers.antt with the answers that are kept, and removes a file without any."""
        for path, parts in self.parts.items():
            left = [part for part in parts if not answer_of(part) or (path, answer_of(part)) in self.kept]
            if any(answer_of(part) for part in left):
                write(path, "\n\n".join(left) + "\n")
            elif os.path.exists(path):
                os.remove(path)

    def keep(self, wanted):
        """Keeps these answers too, and those of the same file that they name. Returns whether any of them is new."""
        more = wanted - self.kept
        self.kept |= more
        for path, goal in more:
            body = self.answers[path, goal].split("=", 1)[1]
            self.keep({other for other in self.answers if other[0] == path and has_word(other[1], body)})
        return bool(more)

    def wanted(self, said):
        """The answers of the goals that are open without them. If no answer has the name of such a goal, these are all answers of its function."""
        at_body = set(AT_BODY.findall(said))
        found = {answer for answer in self.answers if answer[1] in at_body}
        for path, goals in self.open_goals(said).items():
            mine = {answer for answer in self.answers if answer[0] == path}
            for goal in goals - self.near.get(path, set()):
                exact = mine & {(path, goal)}
                whole = {it for it in mine if goal.startswith(f"{it[1]}-clause-") or it[1].startswith(f"{goal}-clause-")}
                found |= exact or whole or mine
        return found

    def slower(self, before, after):
        """The removed answers of the functions that take over SLOWER seconds longer without them."""
        return {it for it in self.answers if it not in self.kept and after.get(it[0], 0) > before.get(it[0], 0) + SLOWER}

    def cited_by_nothing(self):
        """The definitions in proofs/ that nothing in the repository cites, by file and name."""
        texts, found = repository(), set()
        for path, text in self.proofs().items():
            module = self.module_of(path)
            named = f"{self.name}.proofs.{'.'.join(module)}", f"crate::proofs::{'::'.join(module)}"
            citing = []
            for other, whole in texts.items():
                if other.endswith(".md"):
                    citing.append(" ".join(re.findall(r"`[^`\n]*`", whole)))
                elif other.endswith(".edit"):
                    citing.append(" ".join(re.findall(r"^# pins: law \w+", whole, re.M)) if other.startswith(f"{self.folder}/") else "")
                elif other != path and any(has_word(name, whole) for name in named):
                    # an import in this crate doesn't count, as drop_imports removes it; one in another crate does
                    citing.append(re.sub(r"^use .*", "", whole, flags=re.M) if other.startswith(f"{self.folder}/") else whole)
            around = "\n".join(citing)
            parts = parts_of(text)
            for part in parts:
                name = name_of(part)
                if name and not answer_of(part) and not has_word(name, around):
                    own = "\n".join(re.sub(r"^use .*", "", it, flags=re.M) for it in parts if it is not part)
                    if not has_word(name, own):
                        found.add((path, name))
        return found

    def drop_imports(self, gone_from, names):
        """Removes these names of the file GONE_FROM from the crate's imports."""
        module = ".".join(self.module_of(gone_from))
        for path, text in self.proofs().items():
            def without(match):
                left = [name for name in match.group(2).split(", ") if name not in names]
                return f"{match.group(1)}{{{', '.join(left)}}}\n" if left else ""
            changed = re.sub(rf"^(use Rattle\.{self.name}\.proofs\.{re.escape(module)}\.){{(.*)}}\n", without, text, flags=re.M)
            if changed != text:
                write(path, changed)

    def prune(self):
        """Removes what nothing cites any more, until nothing is left to remove, and then the files that define nothing."""
        touched = set()
        while True:
            gone = {it for it in self.cited_by_nothing() - self.uncited if os.path.basename(it[0]) != "Invariants.antt"}
            if not gone:
                break
            for path in {it[0] for it in gone}:
                touched.add(path)
                write(path, "\n\n".join(part for part in parts_of(read(path)) if (path, name_of(part)) not in gone) + "\n")
                self.drop_imports(path, {name for other, name in gone if other == path})
        for path in touched:
            if all(re.match(r"use |--", head_of(part)) for part in parts_of(read(path))):
                os.remove(path)
                lib = f"{os.path.dirname(path)}/Lib.antt"
                if os.path.exists(lib):
                    write(lib, re.sub(rf"^(?:pub )?mod {os.path.basename(path)[:-5]}\n", "", read(lib), flags=re.M))
        for folder, _, _ in os.walk(f"{self.folder}/proofs", topdown=False):
            if not os.listdir(folder):
                os.rmdir(folder)

    def reduce(self):
        """Carries out the steps at the top of this file. Returns a line with the figures, or why the crate isn't proved."""
        self.run(*CHECK, "--only", "")
        status, said, before, first = self.run_anew()
        if status:
            return f"not proved at the start: {faults_in(said)}"
        self.near = self.open_goals(self.run(*CHECK, "--margin", "--allow-holes")[1])
        lines = self.lines()
        while True:
            self.restore()
            while True:
                self.put()
                if not self.keep(self.wanted(self.run(*CHECK, "--margin", "--allow-holes")[1])):
                    break
                print(f"{self.name}: {len(self.kept)} of {len(self.answers)} answers are back", flush=True)
            self.prune()
            self.run("tidy", "--jobs", "1")
            subprocess.run(["rt", "fmt"], cwd=self.folder, check=False, capture_output=True)
            status, said, after, last = self.run_anew()
            more = self.wanted(said) if status else self.slower(before, after)
            if not self.keep(more):
                break
        if status:
            return f"not proved at the end: {faults_in(said)}"
        now = self.lines()
        return (f"answers {len(self.answers)} to {len(self.kept)}, their lines {lines[0]} to {now[0]}, lines of proofs {lines[1]} to {now[1]}, "
                f"seconds {first:.0f} to {last:.0f}")


def main():
    words = sys.argv[1:]
    gate = os.path.abspath(words[1]) if words[:1] == ["--over"] and words[2:] else None
    names = words[2:] if gate else words
    if not names or names[0].startswith("-"):
        print(__doc__)
        return 0
    failed = 0
    for name in names:
        crate = Crate(name, gate)
        told = crate.reduce()
        if told.startswith("not proved"):
            crate.restore()
            failed = 1
        print(f"{name}: {told}", flush=True)
    return failed


if __name__ == "__main__":
    sys.exit(main())
