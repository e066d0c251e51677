"""The Python package of the tools: types (mypy) and style (ruff or flake8), if these programs are
there; its commands; an installation by pip; its documents."""

import doctest
import os
import re
import shutil
import subprocess
import sys
import unittest

import bootmem_tools
from bootmem_tools import inputs, library, reports
from support import LOW, MAIN, PROGRAM, TOP, Case, ran, text_of, use_library

TOOLS = os.path.join(TOP, "tools")
PACKAGE = os.path.join(TOOLS, "bootmem_tools")
# Lines have at most 150 characters; the indentation of continued lines is free.
STYLE = ["--max-line-length", "150", "--extend-ignore", "E127,E128,E131,E203,E402,W291,W503"]


def program_of(*names):
    """The command of the first of these programs that is installed, by its name or as a Python
    module. None if there is none."""
    for name in names:
        if shutil.which(name):
            return [name]
        for python in (sys.executable, "/usr/bin/python3"):
            if os.path.exists(python) and subprocess.run([python, "-m", name, "--version"], capture_output=True, check=False).returncode == 0:
                return [python, "-m", name]
    return None


MYPY, RUFF, FLAKE8 = program_of("mypy"), program_of("ruff"), program_of("flake8")


class Package(Case):
    """The package as a whole."""

    @unittest.skipUnless(MYPY, "there is no mypy: the types aren't checked")
    def test_types(self):
        """mypy --strict reports nothing, also for the oldest Python version that the package
        supports."""
        for words in (["-p", "bootmem_tools"], ["build_backend.py"]):
            status, out, err = ran([*MYPY, "--strict", "--python-version", "3.9", "--cache-dir", self.path("cache"), *words], folder=TOOLS)
            self.check("mypy --strict", (status, err), (0, b"") if status == 0 else (0, out.decode()))

    @unittest.skipUnless(RUFF or FLAKE8, "there is no ruff and no flake8: the style isn't checked")
    def test_style(self):
        """The style checker reports nothing for the package and these tests."""
        command = [*RUFF, "check", "--line-length", "150"] if RUFF else [*FLAKE8, *STYLE]
        status, out, _ = ran([*command, PACKAGE, os.path.join(TOOLS, "build_backend.py"), os.path.join(TOP, "tests")])
        self.check("style", (status, out.decode()), (0, ""))

    def test_documented(self):
        """Each module, class and function of the package has a docstring, and no function is long."""
        for name in sorted(os.listdir(PACKAGE)):
            if name.endswith(".py"):
                self.check(f"{name}: without a docstring, or too long", undocumented(text_of(os.path.join(PACKAGE, name))), [])

    def test_commands(self):
        """pyproject.toml, install.sh and the folder have the same commands, and each runs as a
        module, too."""
        toml = text_of(os.path.join(TOOLS, "pyproject.toml"))
        named = dict(re.findall(r'^([\w-]+) = "bootmem_tools\.(\w+):command"$', toml, re.MULTILINE))
        installed = re.findall(r"[\w-]+", " ".join(re.findall(r'^tools="(.*)"$', text_of(os.path.join(TOOLS, "install.sh")), re.MULTILINE)))
        self.check("commands of install.sh", sorted(set(installed) - {"tools"}), sorted(named))
        for command, module in named.items():
            text = text_of(os.path.join(TOOLS, command))
            self.check(f"{command}: its module", re.findall(r"from bootmem_tools\.(\w+) import", text), [module])
            status, out, err = ran([sys.executable, "-m", f"bootmem_tools.{module}", "--help"], folder=TOOLS)
            self.check(f"python3 -m bootmem_tools.{module}", (status, err, out.decode().split()[:2]), (0, b"", ["usage:", command]))
        self.check("version", re.findall(r'^version = "(.*)"$', toml, re.MULTILINE),
                   re.findall(r"^VERSION := (.*)$", text_of(os.path.join(TOP, "Makefile")), re.MULTILINE))

    def test_pip(self):
        """`pip install .` needs no network, and what it installs runs."""
        status, _, err = ran([sys.executable, "-m", "pip", "--version"])
        if status:
            self.skipTest("there is no pip")
        source, target = self.path("tools"), self.path("there")
        shutil.copytree(TOOLS, source)
        status, _, err = ran([sys.executable, "-m", "pip", "install", "--quiet", "--no-index", "--target", target, source])
        self.check("pip install", (status, err.decode() if status else ""), (0, ""))
        command = os.path.join(target, "bin", "bootmem-where")
        status, out, err = ran([command, "1M", "--", "--kernel", "16M,52M", os.path.join(TOP, "examples/first/zp.bin")],
                               variables={"PYTHONPATH": target, "BOOTMEM": PROGRAM})
        self.check("what pip installed", (status, err, out.decode().splitlines()[1:2]),
                   (0, b"", ["map      usable 0x0000000000100000-0x0000000007fdffff"]))

    @unittest.skipUnless(use_library(), "there is no libbootmem.so ('make lib')")
    def test_examples(self):
        """The examples in the package's own documents."""
        for module in (bootmem_tools, library):
            found = doctest.testmod(module)
            self.check(module.__name__, (found.failed, found.attempted > 3), (0, True))

    def test_inputs(self):
        """The program reads back the entries from which the inputs were made."""
        entries = [LOW, MAIN] + [(0x10000000 + place * 0x2000, 0x1000, inputs.RAM) for place in range(130)]
        page, more = inputs.map_files(entries)
        for name, data in (("zp", page), ("ext", more)):
            with open(self.path(name), "wb") as file:
                file.write(data)
        blocks = [(0, 0x8000000, 0), (0x8000000, 0x20000000, 1)]
        for name, data in (("srat", inputs.srat(blocks, [0, 1])), ("slit", inputs.slit([[10, 20], [20, 10]]))):
            with open(self.path(name), "wb") as file:
                file.write(data)
        words = ["--report", "map,nodes,zonelists", "--e820ext", "ext", "--srat", "srat", "--slit", "slit", "zp"]
        status, out, err = ran([PROGRAM, *words], folder=self.work)
        self.check("the program's status", (status, err), (0, b""))
        texts = reports.split_reports(out.decode())
        self.check("the map", reports.memory_of(texts)[1:], [(first, first + size - 1) for first, size, _ in entries[1:]])
        self.check("nodes", (texts["nodes"][0], texts["zonelists"][0]), ("numa used", "slit used"))
        for what, made in (("129 entries", lambda: inputs.zero_page([MAIN] * 129)), ("3,073 entries", lambda: inputs.extension([MAIN] * 3073))):
            self.assertRaises(ValueError, made)
            self.check(f"{what} are refused", True, True)


def undocumented(text):
    """The functions and classes of a module without a docstring, and its functions of more than 45
    lines."""
    import ast
    found = []
    for node in ast.walk(ast.parse(text)):
        if isinstance(node, (ast.FunctionDef, ast.ClassDef)):
            if not ast.get_docstring(node) and node.name != "__init__":
                found.append(node.name)
            if isinstance(node, ast.FunctionDef) and node.end_lineno - node.lineno > 45:
                found.append(f"{node.name}: {node.end_lineno - node.lineno} lines")
    return found


if __name__ == "__main__":
    unittest.main()
