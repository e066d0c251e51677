"""If an error has one obvious remedy, a line `next:` names the command, and this command works.
Other errors have no such line."""

import os
import shlex
import shutil
import subprocess
import sys
import unittest

from support import EXAMPLES, PROGRAM, PROGRAM61, TOP, Case, bytes_of, example, ran, tool, write

COLLECT = os.path.join(TOP, "tools", "collect.sh")
ZONES = "Node 0, zone   Normal\n        spanned  1\n        present  1\nNode 1, zone   Normal\n"


def next_of(err):
    """The commands in the lines `next:`."""
    return [line.removeprefix("next: ") for line in err.splitlines() if line.startswith("next: ")]


class Next(Case):
    """Lines with the command to run next."""

    def gather(self, name, *files):
        """A folder in the test's own with these files of a machine."""
        os.makedirs(self.path(name), exist_ok=True)
        for file in files:
            shutil.copy(example("q35-20g-numa4", file), self.path(name, file))
        return self.path(name)

    def run_next(self, err, wanted):
        """Runs the only command in the lines `next:` in a shell, with the tools on the PATH, and returns
        its status. Only the expected command is run, because another one could start a build."""
        self.check("the next command", next_of(err), [wanted])
        if next_of(err) != [wanted]:
            return None
        tools = {"PATH": f"{TOP}/tools:{os.environ['PATH']}", "BOOTMEM": PROGRAM,
                 "BOOTMEM61": PROGRAM61}
        return ran(["sh", "-c", wanted], folder=self.work, variables=tools)[0]

    def test_page(self):
        """If a folder has no zero page, the command gathers it, makes it from the folder's log, or names
        the folders in it."""
        self.gather("empty")
        for name in ("bootmem-crash", "bootmem-live"):
            status, out, err = tool(name, "empty", folder=self.work)
            self.check(f"{name}, an empty folder", (status, out, err), (2, "",
                                                                        f"{name}: empty: it has no zp.bin, the zero page\n"
                                                                               f"next: {COLLECT} empty\n"))
        self.gather("a log")
        shutil.copy(example("ovmf-8g-crashranges", "log"), self.path("a log", "log"))
        _, _, err = tool("bootmem-crash", "a log", folder=self.work)
        status = self.run_next(err, "zp-from-log --folder 'a log' 'a log/log'")
        self.check("a log: it makes the zero page", (status,
                                                     os.path.exists(self.path("a log", "zp.bin"))),
                   (0, True))
        self.gather("outer")
        self.gather("outer/one", "zp.bin", "words")
        for name in ("bootmem-crash", "bootmem-fleet"):
            _, _, err = tool(name, "outer/", folder=self.work)
            self.check(f"{name}: it runs over the folders in it",
                       self.run_next(err, f"{name} outer/*/"), 0)
        status, out, err = tool("bootmem-crash", "--size", "64M", "empty", "outer/one",
                                folder=self.work)
        self.check("several machines", (status, out.startswith("== outer/one\n"), next_of(err)),
                   (2, True, [f"{COLLECT} empty"]))

    def test_srat(self):
        """If a folder has no SRAT but its kernel has several nodes, the command gathers the table as root,
        or makes it from the folder's log."""
        folder = self.gather("host", "zp.bin", "cmdline", "words")
        for name, found in (("bootmem-crash", 2), ("bootmem-live", 1)):
            _, out, err = tool(name, folder)
            self.check(f"{name}: nothing shows nodes", ("several nodes" in out + err,
                                                        next_of(err)), (False, []))
        write(self.path("host", "zoneinfo"), ZONES)
        for name in ("bootmem-crash", "bootmem-live"):
            _, out, err = tool(name, folder)
            self.check(f"{name}: nodes",
                       ("the kernel has several nodes, but the folder has no srat.bin"
                        in out + err, next_of(err)),
                       (True, [f"sudo {COLLECT} {folder}"]))
        log = bytes_of(example("ovmf-8g-crashranges", "log"))
        write(self.path("host", "log"),
              log + b"ACPI: SRAT: Node 0 PXM 0 [mem 0x00000000-0x17fffffff]\n"
              b"ACPI: SRAT: Node 1 PXM 1 [mem 0x180000000-0x27fffffff]\n")
        _, _, err = tool("bootmem-crash", "host", folder=self.work)
        status = self.run_next(err, "zp-from-log --output /dev/null --srat host/srat.bin host/log")
        self.check("a log with nodes: it makes the SRAT", (status,
                                                           os.path.exists(self.path("host", "srat.bin"))), (0, True))
        self.check("then there is no such line", next_of(tool("bootmem-crash", "host",
                                                              folder=self.work)[2]), [])

    def test_files(self):
        """Missing files that have the names of bootmem-collect."""
        self.gather("host", "zp.bin", "cmdline")
        for words, wanted in ((["--srat", "srat.bin", "zp.bin"], [f"sudo {COLLECT} ."]),
                              (["--efi", "efi.bin", "zp.bin"], [f"sudo {COLLECT} ."]),
                              (["--cmdline", "cmdline", "zp.bin"], []), (["--srat", "other",
                                                                          "zp.bin"], []),
                              (["nothing"], []),
                              (["--srat", "none/srat.bin", "zp.bin"], [])):
            for name, own in (("bootmem-linux", words), ("bootmem-json", ["--report", "map", "--",
                                                                          *words])):
                status, _, err = tool(name, *own, folder=self.path("host"))
                self.check(f"{name} {words}", (status == 0, next_of(err)), ("cmdline" in words,
                                                                            wanted))

    def test_program(self):
        """If there is no program, the command makes the repository's. A named program that can't be run has
        no such line, unless it belongs to a repository."""
        for name in ("Makefile", "tools/collect.sh"):
            os.makedirs(os.path.dirname(self.path("a clone", name)), exist_ok=True)
            write(self.path("a clone", name), "")
        shutil.copytree(os.path.join(TOP, "tools", "bootmem_tools"), self.path("a clone", "tools",
                                                                               "bootmem_tools"),
                        ignore=shutil.ignore_patterns("__pycache__"))
        shutil.copytree(self.path("a clone", "tools", "bootmem_tools"),
                        self.path("site", "bootmem_tools"))
        top = self.path("a clone")
        command = f"make -C {shlex.quote(top)} bootmem"
        command61, raw = f"{command}61", ["--raw"]
        code = "import sys; from bootmem_tools import crash, tool; sys.argv = ['crash', *sys.argv[1:]]; tool.run_tool('bootmem-crash', crash.main, 2)"
        for place, words, wanted in (("a clone/tools", raw, [command]), ("site", raw, []),
                                     ("a clone/tools", [], [command61]), ("site", [], []),
                                     ("site", [*raw, "--program", f"{top}/bootmem"], [command]),
                                     ("site", ["--program", f"{top}/bootmem61"], [command61]),
                                     ("a clone/tools", ["--program", "/nowhere"], [])):
            variables = {"PYTHONPATH": self.path(place), "PATH": self.path("none"), "BOOTMEM": "",
                         "BOOTMEM61": ""}
            status, out, err = ran([sys.executable, "-c", code, *words,
                                    example("q35-1g", "zp.bin")], folder=self.work,
                                   variables=variables)
            self.check(f"no program, {place} {words}", (status, out, err.count(b"\n"),
                                                        next_of(err.decode())),
                       (2, b"", 1 + len(wanted), wanted))

    def test_library(self):
        """If there is no library, the command makes the repository's, or names it if it exists. An
        installation has no such line."""
        os.makedirs(self.path("clone", "tools"))
        write(self.path("clone", "Makefile"), "")
        for place in ("clone/tools", "site"):
            shutil.copytree(os.path.join(TOP, "tools", "bootmem_tools"),
                            self.path(place, "bootmem_tools"),
                            ignore=shutil.ignore_patterns("__pycache__"))
        code, library = "from bootmem_tools import library; library.version()", self.path("clone", "libbootmem.so")
        for place, is_built, wanted in (("clone/tools", False,
                                         [f"make -C {self.path('clone')} lib"]),
                                        ("clone/tools", True, [f"export BOOTMEM_LIB={library}"]),
                                        ("site", True, [])):
            if is_built:
                write(library, "")
            variables = {"BOOTMEM_LIB": "/nowhere/libbootmem.so", "PYTHONPATH": self.path(place)}
            done = subprocess.run([sys.executable, "-c", code], env={**os.environ, **variables},
                                  capture_output=True, text=True, check=False)
            self.check(f"no library, {place}, {is_built}", (done.returncode, next_of(done.stderr)),
                       (1, wanted))

    @unittest.skipUnless(shutil.which("cargo"), "there is no cargo: the build in Rust isn't run")
    def test_rust(self):
        """A build in Rust without the library, inside and outside the sources."""
        for place, wanted in (("clone/bindings/rust",
                               [f"make -C '{os.path.realpath(self.path('clone'))}' lib && "
                                                      f"export BOOTMEM_LIB_DIR='{os.path.realpath(self.path('clone'))}'"]), ("share/rust", [])):
            shutil.copytree(os.path.join(TOP, "bindings", "rust"), self.path(place),
                            ignore=shutil.ignore_patterns("target"))
            write(self.path("clone", "Makefile"), "")
            variables = {"BOOTMEM_LIB_DIR": self.work, "CARGO_TARGET_DIR": self.path("target")}
            _, _, err = ran(["cargo", "build", "--offline", "--quiet"], folder=self.path(place),
                            variables=variables)
            lines = "\n".join(line.strip() for line in err.decode().splitlines())
            self.has(f"rust, {place}", lines, "there is no libbootmem.a in ")
            self.check(f"rust, {place}: next", next_of(lines), wanted)


if __name__ == "__main__":
    unittest.main()
