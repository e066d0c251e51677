#!/usr/bin/env python3
"""run.py [PROGRAM [TEST..]]: runs the tests of this folder over a program, which is ./bootmem unless
one is named. TEST is a module without its test_, such as draw; a script, such as shown.sh; or
`modules`, which is all modules. Without TEST every test runs. `run.py --sources` runs the tests
that compare documents with sources; they need no program.

A module prints a line with the numbers of its tests and comparisons; so does a script that counts
them. A failure prints the test, what was compared, the last command that ran, the value that it
got and the value that it expected. A test that needs a tool that the system lacks is left out, and
a line says so. The status is 0 if none failed. The tests need neither root nor a network.
"""

import glob
import io
import multiprocessing
import os
import re
import subprocess
import sys
import traceback
import unittest

sys.dont_write_bytecode = True
HERE = os.path.dirname(os.path.abspath(__file__))
TOP = os.path.dirname(HERE)
# Scripts, and the words of each. A script that needs more than the program is left out if that is
# missing.
SCRIPTS = {"pins.py": [], "rooms.py": [], "named.py": [], "definitions.py": [], "real_boots.sh": ["PROGRAM"],
           "audits.sh": ["PROGRAM", "AUDIT"], "outside.sh": ["PROGRAM"], "collect.sh": [], "install.sh": [], "shown.sh": ["PROGRAM"],
           "library.sh": ["PROGRAM"]}
SOURCES = ["pins.py", "rooms.py", "named.py", "definitions.py", "words"]
NEEDED = {"library.sh": ["libbootmem.a"], "audits.sh": ["bootaudit"],
          "install.sh": ["bootmem", "bootmem61", "bootaudit"], "shown.sh": ["bootmem61", "bootaudit"]}


class Result(unittest.TextTestResult):
    """A test result that prints failed comparisons without a traceback."""

    def _exc_info_to_string(self, err, test):
        """The message of a failed comparison; for any other error, the traceback."""
        text = super()._exc_info_to_string(err, test)
        return str(err[1]) + "\n" if issubclass(err[0], AssertionError) and "\n    ran " in str(err[1]) else text


def run_module(name):
    """Runs the tests of a module. Returns its line, the lines on what failed or was left out,
    whether all is well, and the number of comparisons."""
    sys.path.insert(0, HERE)
    from support import Counted
    before, said = Counted.checks, io.StringIO()
    try:
        suite = unittest.defaultTestLoader.loadTestsFromName(f"test_{name}")
    except Exception:  # it is reported, and the other modules run
        return f"{name}: it can't be loaded", traceback.format_exc().splitlines(), False, 0
    result = unittest.TextTestRunner(stream=said, resultclass=Result, verbosity=0).run(suite)
    lines = [f"{name}: left out: {why}" for _, why in result.skipped]
    for test, text in result.failures + result.errors:
        lines.append(f"{name}: {test.id().partition('.')[2]}: {text.rstrip()}")
    wrong = len(result.failures) + len(result.errors)
    checks = Counted.checks - before
    return f"{name}: {result.testsRun} tests, {checks} comparisons, {wrong} failed", lines, wrong == 0, checks


def run_script(name):
    """Runs a script. Returns its last line, its other lines, whether its status is 0, and the number
    of comparisons."""
    lacks = [file for file in NEEDED.get(name, []) if not os.path.exists(os.path.join(TOP, file))]
    if lacks:
        return f"{name}: left out: there is no ./{lacks[0]}", [], True, 0
    words = [{"PROGRAM": os.environ["BOOTMEM_TESTED"], "AUDIT": os.path.join(TOP, "bootaudit")}.get(word, word) for word in SCRIPTS[name]]
    done = subprocess.run([os.path.join(HERE, name), *words], stdout=subprocess.PIPE, stderr=subprocess.STDOUT, cwd=TOP, check=False)
    lines = done.stdout.decode("utf-8", "replace").splitlines()
    passed = re.match(r"(\d+) passed", lines[-1]) if lines else None
    return f"{name}: {lines[-1] if lines else 'no word'}", lines[:-1], done.returncode == 0, int(passed.group(1)) if passed else 0


def run_one(name):
    """Runs a module or a script."""
    return run_script(name) if name in SCRIPTS else run_module(name)


def main(words):
    """Runs the tests that the words name. Returns the status."""
    if words == ["--sources"]:
        return run_all(SOURCES)
    program = os.path.abspath(words[0] if words else os.path.join(TOP, "bootmem"))
    if not os.access(program, os.X_OK):
        print(f"run.py: there is no program {program}: 'make bootmem' builds it", file=sys.stderr)
        return 2
    os.environ["BOOTMEM_TESTED"] = program
    modules = sorted(os.path.basename(path)[len("test_"):-len(".py")] for path in glob.glob(os.path.join(HERE, "test_*.py")))
    names = [name for word in words[1:] or ["scripts", "modules"] for name in
             {"scripts": list(SCRIPTS), "modules": modules}.get(word, [word])]
    unknown = [name for name in names if name not in SCRIPTS and name not in modules]
    if unknown:
        print(f"run.py: there is no test {unknown[0]}: {', '.join([*SCRIPTS, *modules])}", file=sys.stderr)
        return 2
    return run_all(names)


def run_all(names):
    """Runs these tests, as many at once as there are processors, and prints the result of each.
    Returns the status."""
    well, total = True, 0
    with multiprocessing.Pool(len(os.sched_getaffinity(0)), maxtasksperchild=1) as pool:
        for line, lines, passed, checks in pool.imap(run_one, names, chunksize=1):
            print("\n".join([*lines, line]), flush=True)
            well, total = well and passed, total + checks
    print(f"{total} comparisons in {len(names)} tests: {'all as they should be' if well else 'some failed'}")
    return 0 if well else 1


if __name__ == "__main__":
    sys.exit(main(sys.argv[1:]))
