"""How a build proves crates and shows its progress, with a fake toolchain. A crate is proved after
the crates that it uses, an unchanged crate isn't proved again, and a failure shows its log."""

import os
import shutil
import sys

from support import TOP, Case, ran

CRATES = "low:\nleft: low\nright: low  # beside left\ntop: left right low\napart: low\nmain: top std_only\n"
# The fake toolchain makes a library, and logs its start and its end. It fails if the crate's file says so.
STAND_IN = """#!/bin/sh
[ "$1" != version ] || { echo stand-in; exit 0; }
name=$(basename "$PWD")
echo "begin $name" >>"$PROVED"
sleep 0.2
grep -q wrong src/lib.rt && { echo "an open goal in $name"; exit 1; }
mkdir -p "out/rlib/$name.rlib"
echo "end $name" >>"$PROVED"
"""


class ProveBelow(Case):
    """tools/prove_below.py over a repository of six crates."""

    def setUp(self):
        super().setUp()
        for name in ("low", "left", "right", "top", "apart", "main"):
            os.makedirs(self.path("crates", name, "src"))
            self.put(name, "")
        os.makedirs(self.path("tools"))
        shutil.copy(os.path.join(TOP, "tools", "prove_below.py"), self.path("tools", "prove_below.py"))
        for path, text in (("crates.txt", CRATES), ("rt", STAND_IN)):
            with open(self.path(path), "w", encoding="utf-8") as file:
                file.write(text)
        os.chmod(self.path("rt"), 0o755)

    def put(self, crate, text):
        with open(self.path("crates", crate, "src", "lib.rt"), "w", encoding="utf-8") as file:
            file.write(text)

    def prove(self, crate="main"):
        """Runs prove_below.py. Returns status, standard error and the lines that the fake toolchain logged."""
        log = self.path("log")
        with open(log, "w", encoding="utf-8"):
            pass
        status, _, err = ran([sys.executable, self.path("tools", "prove_below.py"), crate],
                             variables={"RT": self.path("rt"), "PROVED": log})
        with open(log, encoding="utf-8") as file:
            return status, err.decode(), file.read().split("\n")[:-1]

    def test_each_after_those_it_uses(self):
        status, err, log = self.prove()
        self.check("status", status, 0)
        self.check("each crate below, exactly once", sorted(line for line in log if line.startswith("end")),
                   ["end left", "end low", "end right", "end top"])
        for first, then in (("low", "left"), ("low", "right"), ("left", "top"), ("right", "top")):
            self.check(f"{then} after {first}", log.index(f"end {first}") < log.index(f"begin {then}"), True)
        self.has("progress", err, "main: 4 of 4 crates proved, ")

    def test_what_changed_alone(self):
        self.prove()
        self.check("nothing changed", self.prove()[2], [])
        self.put("left", "changed")
        self.check("the changed crate and the crates above it", [line for line in self.prove()[2] if line.startswith("begin")],
                   ["begin left", "begin top"])

    def test_a_failure_shows_its_log(self):
        self.put("right", "wrong")
        status, err, log = self.prove()
        self.check("status", status, 1)
        self.has("the log's end", err, "an open goal in right\n")
        self.has("where the log is", err, "right: not proved; the whole log is ")
        self.check("nothing above it", "begin top" in log, False)


class ShowProgress(Case):
    """tools/show_progress.py over what the toolchain prints."""

    def test_lines(self):
        command = "echo 'fn a::b: proved'; echo 'rt: low proved'; echo '2 passed, 1 failed'; exit 3"
        status, out, err = ran([sys.executable, os.path.join(TOP, "tools", "show_progress.py"), self.path("log"), "sh", "-c", command])
        self.check("the command's status", status, 3)
        lines = out.decode().split("\n")
        self.has("a line per crate", lines[0], "1 of ")
        self.check("the rest as it is", lines[1:], ["2 passed, 1 failed", ""])
        self.has("the end after a failure", err.decode(), "fn a::b: proved\n")
        with open(self.path("log"), encoding="utf-8") as file:
            self.check("the whole log", file.read(), "fn a::b: proved\nrt: low proved\n2 passed, 1 failed\n")
