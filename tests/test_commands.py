"""Every tool: its --help, the examples in it, words that the tool doesn't know, and its installation."""

import os
import re
import shutil
import signal
import subprocess
import time
import unittest

from kernels import folder_of, stand_in
from support import PROGRAM, TOP, Case, example, last_line, program, text_of, tool, words_of, write
from test_where import WHERE

VERSION = re.search(r"^VERSION := (.*)$", text_of(os.path.join(TOP, "Makefile")), re.MULTILINE).group(1)

PROGRAM61 = os.path.join(TOP, "bootmem61")


def shown_examples(name):
    """The commands under `example:` or `examples:` of a tool's --help."""
    match = re.search(r"^examples?:\n((?:  .+\n)+)", tool(name, "--help")[1], re.MULTILINE)
    return [line.strip() for line in match.group(1).splitlines()] if match else []


class Commands(Case):
    """Checks that hold for all tools."""

    def test_help(self):
        """The --help of each tool says how it is used and that it isn't proved. Unknown words are refused."""
        for name in ("bootmem-draw", "bootmem-where", "bootmem-diff", "bootmem-live", "zp-from-log", "collect.sh", "bootmem-json",
                     "bootmem-fleet", "claims-from-log", "bootmem-line", "bootmem-crash", "bootmem-linux", "free-lists", "boot-example"):
            status, out, err = tool(name, "--help")
            self.check(f"{name} --help", (status, err), (0, ""))
            self.has(f"{name} --help", out, "isn't proved")
            self.check(f"{name} --version", tool(name, "--version"), (0, f"{name} {VERSION}\n", ""))
            self.check(f"{name} --help: lines of 80 letters", max(len(line) for line in out.splitlines()) <= 80, True)
            status, out, err = tool(name, "--unknown")
            self.check(f"{name} --unknown", (status, out, err == ""), (2, "", False))

    def installed(self, program):
        """The installed script with a fake program, a shell script of these lines."""
        for folder in ("bin", "libexec/bootmem"):
            os.makedirs(self.path(folder), exist_ok=True)
        write(self.path("libexec/bootmem/bootmem"), f"#!/bin/sh\n{program}\n")
        write(self.path("bin/bootmem"), text_of(os.path.join(TOP, "tools", "command.sh")).replace("@PROGRAM@", "bootmem"))
        for file in ("libexec/bootmem/bootmem", "bin/bootmem"):
            os.chmod(self.path(file), 0o755)
        return self.path("bin/bootmem")

    def test_signals(self):
        """A signal to only the installed script ends the program, too, and the script ends by the same signal."""
        script = self.installed(f"echo $$ >'{self.path('pid')}.new'; mv '{self.path('pid')}.new' '{self.path('pid')}'; exec sleep 100")
        for number in (signal.SIGTERM, signal.SIGINT, signal.SIGHUP):
            with subprocess.Popen([script, "zp"]) as running:
                while not os.path.exists(self.path("pid")):
                    time.sleep(0.01)
                program = int(text_of(self.path("pid")))
                running.send_signal(number)
                status = running.wait(60)
            self.check(f"{number.name}: the script, and the program", (status, os.path.exists(f"/proc/{program}")), (-number, False))
            os.remove(self.path("pid"))

    def test_hands_over(self):
        """The installed script passes on words, standard input and status unchanged."""
        script = self.installed("for word; do printf '%s\\n' \"$word\"; done; cat; exit 6")
        done = subprocess.run([script, "a b", "", "*"], input=b"given\n", stdout=subprocess.PIPE, check=False)
        self.check("words, input, status", (done.stdout, done.returncode), (b"a b\n\n*\ngiven\n", 6))
        script = self.installed("kill -9 $$")
        self.check("a program that is killed", subprocess.run([script], check=False).returncode, 137)
        script = self.installed("if true 9<&0; then echo open; else echo closed; fi 2>/dev/null")
        for words, wanted in (("<&-", "closed\n"), ("</dev/null", "open\n")):
            done = subprocess.run(["sh", "-c", f"'{script}' {words}"], stdout=subprocess.PIPE, stderr=subprocess.PIPE, check=False)
            self.check(f"standard input: {words}", (done.stdout.decode(), done.stderr), (wanted, b""))

    def test_examples(self):
        """The commands in --help run without a complaint in a folder with the files of a machine."""
        commands = self.path("bin")
        os.makedirs(commands)
        os.symlink(PROGRAM, os.path.join(commands, "bootmem"))
        has61 = os.path.exists(PROGRAM61)
        if has61:
            os.symlink(PROGRAM61, os.path.join(commands, "bootmem61"))
        shutil.copy(example("q35-2g-shortlog", "log"), self.work)  # it is complete, and has one node
        write(os.path.join(commands, "dmesg"), f"#!/bin/sh\ncat '{self.work}/log'\n".encode())
        os.chmod(os.path.join(commands, "dmesg"), 0o755)
        names = ("bootmem-draw", "bootmem-where", "bootmem-diff", "zp-from-log", "bootmem-json", "bootmem-fleet", "claims-from-log")
        for name in names:
            os.symlink(os.path.join(TOP, "tools", name), os.path.join(commands, name))
        ran = 0
        for name in names:
            folder = self.path(name)
            shutil.copytree(example("q35-8g-numa2"), folder)
            for file, source in (("old.txt", example("q35-8g-numa2", "map.txt")), ("new.txt", example("q35-4g-mem2g", "map.txt")),
                                 ("1", example("q35-8g-numa2", "cmdline")), ("2", example("q35-4g-mem2g", "cmdline"))):
                shutil.copy(source, os.path.join(folder, file))
            write(os.path.join(folder, "reports.txt"),
                  program(folder, "--report", "map,memory,owners,journal,tables,nodes,zones,sections,blocks", "zp.bin").encode())
            shutil.copytree(example("pc-128m"), os.path.join(folder, "host1"))
            for command in shown_examples(name):
                ran += 1
                if command.startswith("bootmem61 ") and not has61:
                    continue
                done = subprocess.run(["sh", "-c", command], stdin=subprocess.DEVNULL, stdout=subprocess.PIPE, stderr=subprocess.PIPE,
                                      cwd=folder, env={**os.environ, "BOOTMEM": "", "PATH": commands + os.pathsep + os.environ["PATH"]},
                                      check=False)
                # an area of 512 MiB doesn't fit: host1 has 128 MiB
                wanted = 4 if "512M,high" in command else 1 if name == "bootmem-diff" else 0
                self.check(f"example: {command}", (done.returncode, done.stderr.decode()), (wanted, ""))
                self.check(f"example: {command}: it prints or writes", bool(done.stdout) != bool(re.search("--output|--html| > ", command)), True)
        self.check("examples of --help", ran, 22)

    def test_examples_of_a_folder(self):
        """The commands in the --help of each tool run in a folder that bootmem-collect gathered, and print or write something."""
        commands = self.path("bin")
        os.mkdir(commands)
        for name in ("bootmem-line", "bootmem-crash", "bootmem-live"):
            os.symlink(os.path.join(TOP, "tools", name), os.path.join(commands, name))
        folder = folder_of(self, "q35-8g-numa2")
        for name in ("here", "host1"):
            os.symlink(".", os.path.join(folder, name))
        wanted = {"bootmem-line": [0, 1, 1], "bootmem-crash": [0, 0, 0, 0], "bootmem-live": [0]}
        for name, statuses in wanted.items():
            # commands that look at the running machine are left out
            shown = [command for command in shown_examples(name) if command not in ("bootmem-live", "bootmem-live --keep here")]
            self.check(f"{name}: examples", len(shown), len(statuses))
            for command, status in zip(shown, statuses):
                path = commands + os.pathsep + os.environ["PATH"]
                got, out, _ = tool("/bin/sh", "-c", command, folder=folder, variables={"PATH": path})
                self.check(f"example: {command}", (got, bool(out)), (status, ">" not in command))

    def test_installed(self):
        """Installed tools: they are in bin like the program, and their package is in lib."""
        subprocess.run([os.path.join(TOP, "tools", "install.sh"), "tools", "", self.work, self.path("man")], check=True)
        os.symlink(PROGRAM, self.path("bin", "bootmem"))
        path = {"BOOTMEM": "", "PATH": self.path("bin") + os.pathsep + os.environ["PATH"]}
        status, out, err = tool(self.path("bin", "bootmem-where"), "0x17be00040", "--", *words_of("q35-8g-numa2"),
                                folder=example("q35-8g-numa2"), variables={"BOOTMEM": ""})
        self.check("installed: beside", (status, out, err), (0, WHERE, ""))
        os.rename(self.path("bin", "bootmem-diff"), self.path("bootmem-diff"))
        shutil.copytree(os.path.join(TOP, "tools", "bootmem_tools"), self.path("bootmem_tools"))
        for variables, wanted in ((path, 0), ({**path, "BOOTMEM": "/nowhere/bootmem"}, 2)):
            self.check("installed: on the PATH", tool(self.path("bootmem-diff"), "--a", "zp.bin", "--b", "zp.bin",
                                                 folder=example("q35-1g"), variables=variables)[:2], (wanted, ""))
        place = stand_in(self.work, "pc-128m")
        status, out, err = tool(self.path("bin", "bootmem-live"), "--sys", os.path.join(place, "sys"), "--proc",
                                os.path.join(place, "proc"), variables={"BOOTMEM": ""})
        self.check("installed: bootmem-collect", (status, err, last_line(out)[:8]), (0, "", "4 agree,"))


if __name__ == "__main__":
    unittest.main()
