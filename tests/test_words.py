"""tools/bootmem_tools/words.txt has the options, reports and inputs of the programs. The same words
are in the programs' definitions, README.md, the manual pages, docs/FORMATS.md, the tools' grammar
and the completions for bash; and a program takes each of them, and no other."""

import os
import re
import shutil
import subprocess
import unittest

from bootmem_tools import grammar, words
from support import MACHINE, PROGRAM, TOP, Case, example, run_over, text_of, zero_page

OPTIONS = sorted(f"--{name}" for name in words.OPTIONS)
AUDIT = sorted(f"--{name}" for name in words.AUDIT_OPTIONS)
REPORTS = sorted(words.REPORTS)
OPTIONS61 = sorted(f"--{name}" for name in words.BOOTMEM61.options)
REPORTS61 = sorted(words.BOOTMEM61.reports)
PROGRAM61 = os.path.join(TOP, "bootmem61")
# A value for each option. Options for files get bytes that are wrong for every input, so that the
# program's line names the input.
VALUES = {"RANGES": "64M,16M", "BASE,SIZE": "0x1000000,0x3400000", "LIST": "map", "N": "3"}


def text(*names):
    """The text of a file, by its path from the top."""
    return text_of(os.path.join(TOP, *names))


def options_in(page):
    """The long options that a text has, each once."""
    return sorted(set(re.findall(r"--[a-z][a-z0-9-]*", page.replace("\\-", "-"))))


def section(program, name):
    """The section of that name of a program's manual page."""
    return re.search(rf"^\.SH {name}\n(.*?)(?=^\.SH |\Z)", text(f"{program}.1"), re.MULTILINE | re.DOTALL).group(1)


def marked_options(program):
    """The options with an entry in the section OPTIONS of a manual page."""
    return options_in("\n".join(re.findall(r"^\.BI? .*", section(program, "OPTIONS"), re.MULTILINE)))


def synopsis(program, *names):
    """The options in the lines of a document that begin with four blanks and the program's name."""
    return options_in("\n".join(re.findall(rf"^    {program} \[.*", text(*names), re.MULTILINE)))


def codes_in(crate, name, form):
    """The words of a definition in their order: the arguments of `codes` in the parts of the file that
    match the pattern."""
    found = re.findall(form, text("crates", crate, "specs", f"{name}.antt"), re.MULTILINE | re.DOTALL)
    return [word for part in found for word in re.findall(r'codes "([a-z0-9-]+)"', part)]


class Words(Case):
    """All places have the same words."""

    def test_definitions(self):
        """The definitions against which the program is proved have these words, in this order."""
        self.check("options of Grammar.antt", codes_in("program_args", "Grammar", r"^options =\n(.*?)∷ \[\]"), list(words.OPTIONS))
        self.check("options of bootmem61 in Grammar.antt", codes_in("program_args", "Grammar", r"^options61 = (.*?)$"),
                   [name for name in words.BOOTMEM61.options if name not in words.OPTIONS])
        self.check("flags of Grammar.antt", re.findall(r'codes "([a-z0-9-]+)", SetTrue', text("crates/program_args/specs/Grammar.antt")),
                   [name for name, value in words.OPTIONS.items() if not value])
        self.check("reports of Report.antt", codes_in("debugfs_reports", "Report", r"^(report_name reports.*?)$"), list(words.BOOTMEM61.reports))
        self.check("inputs of Input.antt", codes_in("boot_inputs", "Input", r"^(input_word inputs.*?)$"), list(words.BOOTMEM61.inputs))
        self.check("options of bootaudit's Args.antt", codes_in("boot_audit", "Args", r"^(read_audit_args .*?)(?:\n\n|\Z)"), AUDIT)

    @unittest.skipUnless(os.access(PROGRAM, os.X_OK), "there is no program: it isn't asked for its words")
    def test_program(self):
        """The program takes each option and each report, and names each input. It takes no word with a
        further letter."""
        files = {"zp": zero_page(MACHINE), "faulty": b"mem=x"}
        for name, value in words.OPTIONS.items():
            given = [] if not value else [VALUES.get(value, "faulty")]
            page = [] if name == "make" else ["zp"]
            status, _, line = run_over(files, [f"--{name}", *given, *page])
            wanted = (5, f"bootmem: {name}: ") if value == "FILE" else (0, "")
            self.check(f"--{name}", (status, line[:len(wanted[1])]), wanted)
            self.check(f"--{name}x", run_over(files, [f"--{name}x", *given, *page]), (2, "", "bootmem: usage\n"))
        for name in words.REPORTS:
            self.check(f"--report {name}", run_over(files, ["--report", name, "zp"])[::2], (0, ""))
            self.check(f"--report {name}x", run_over(files, ["--report", f"{name}x", "zp"]), (2, "", "bootmem: usage\n"))
        named = [name for name, value in words.OPTIONS.items() if value == "FILE"]
        self.check("the inputs are the zero page and the options' files", sorted(words.INPUTS), sorted(["zeropage", *named]))

    @unittest.skipUnless(os.access(PROGRAM61, os.X_OK), "there is no ./bootmem61: it isn't asked for its words")
    def test_program61(self):
        """bootmem61 takes each of its options and reports, and reads its inputs in its own order. It takes no word with a further letter."""
        files = {"zp": zero_page(MACHINE), "faulty": b"mem=x"}
        for name, value in words.BOOTMEM61.options.items():
            given = [] if not value else [VALUES.get(value, "faulty")]
            page = [] if name == "make" else ["zp"]
            status, _, line = run_over(files, [f"--{name}", *given, *page], PROGRAM61)
            wanted = (5, f"bootmem61: {name}: ") if value == "FILE" else (0, "")
            self.check(f"bootmem61 --{name}", (status, line[:len(wanted[1])]), wanted)
            self.check(f"bootmem61 --{name}x", run_over(files, [f"--{name}x", *given, *page], PROGRAM61), (2, "", "bootmem61: usage\n"))
        for name in words.BOOTMEM61.reports:
            self.check(f"bootmem61 --report {name}", run_over(files, ["--report", name, "zp"], PROGRAM61)[::2], (0, ""))
            self.check(f"bootmem61 --report {name}x", run_over(files, ["--report", f"{name}x", "zp"], PROGRAM61), (2, "", "bootmem61: usage\n"))
        # of several faulty files the program names the one that it reads first
        named = [name for name in words.BOOTMEM61.inputs if name != "zeropage"]
        for place, name in enumerate(named):
            given = [word for other in reversed(named[place:]) for word in (f"--{other}", "faulty")]
            self.check(f"bootmem61: {name} before those after it", run_over(files, [*given, "zp"], PROGRAM61)[2].split(":")[1:2], [f" {name}"])

    @unittest.skipUnless(os.access(PROGRAM, os.X_OK), "there is no program: it isn't asked for its words")
    def test_words61(self):
        """bootmem has neither the option nor the report of bootmem61."""
        files = {"zp": zero_page(MACHINE), "early": b""}
        for given in (["--claims", "early"], ["--report", "claims"], ["--report", "map,claims"]):
            self.check(f"bootmem {given}", run_over(files, [*given, "zp"]), (2, "", "bootmem: usage\n"))

    def test_help(self):
        """The help of bootmem61 has the lines of bootmem's help on options and reports, and lines on its own words."""
        lines, more = ([line for line in text("tools", f"{name}.help").splitlines() if line.startswith("  ")] for name in ("bootmem", "bootmem61"))
        self.check("lines of bootmem.help that bootmem61.help lacks", [line for line in lines[1:] if line not in more], [])
        self.check("lines that only bootmem61.help has", [line.split()[0] for line in more[1:] if line not in lines], ["--claims", "claims"])

    def test_documents61(self):
        """The manual page of bootmem61 and FORMATS.md have its options, and the page its reports."""
        self.check("SYNOPSIS of bootmem61.1", options_in(section("bootmem61", "SYNOPSIS")), OPTIONS61)
        self.check("OPTIONS of bootmem61.1", set(marked_options("bootmem61")) - set(OPTIONS), set(OPTIONS61) - set(OPTIONS))
        self.check("grammar of bootmem61 in docs/FORMATS.md", synopsis("bootmem61", "docs", "FORMATS.md"), ["--claims"])
        for name in set(REPORTS61) - set(REPORTS):
            self.check(f"FORMATS.md: the report {name}", f"\n## The report `{name}`\n" in text("docs", "FORMATS.md"), True)
            self.check(f"bootmem61.1: the report {name}", f"\n.SS {name}\n" in text("bootmem61.1"), True)

    def test_documents(self):
        """Manual pages and FORMATS.md have all options and reports. README.md has no others."""
        self.check("options of README.md", set(re.findall(r"(?<= )--[a-z0-9-]+", text("README.md"))) - set(OPTIONS61), set())
        self.check("SYNOPSIS of bootmem.1", options_in(section("bootmem", "SYNOPSIS")), OPTIONS)
        self.check("OPTIONS of bootmem.1", marked_options("bootmem"), OPTIONS)
        self.check("grammar of docs/FORMATS.md", synopsis("bootmem", "docs", "FORMATS.md"), OPTIONS)
        shown = re.search(r"^\.SH REPORTS\n(.*?)^\.SH ", text("bootmem.5"), re.MULTILINE | re.DOTALL).group(1)
        self.check("REPORTS of bootmem.5", sorted(set(re.findall(r"^\.SS ([a-z]*)$", shown, re.MULTILINE))), REPORTS)
        named = {name for names in re.findall(r"--report ([a-z,]+)", text("README.md")) for name in names.split(",")}
        self.check("reports of README.md", named - set(REPORTS), set())
        self.check("SYNOPSIS of bootaudit.1", options_in(section("bootaudit", "SYNOPSIS")), AUDIT)
        self.check("OPTIONS of bootaudit.1", marked_options("bootaudit"), AUDIT)
        self.check("grammar of bootaudit in docs/FORMATS.md", synopsis("bootaudit", "docs", "FORMATS.md"), AUDIT)

    def test_tools(self):
        """The tools' grammar has a table for each report."""
        self.check("reports of the grammar", sorted(grammar.GRAMMAR), sorted(REPORTS61))


@unittest.skipUnless(shutil.which("bash"), "there is no bash: what the completions answer isn't tried")
class Completions(Case):
    """The completions of bash for the last of some words, in the folder of a machine."""

    def completed(self, program, *line):
        """The proposals, sorted."""
        # bootmem61 has the file and the function of bootmem
        script = '. "$1"; shift; COMP_WORDS=("$@"); COMP_CWORD=$(($# - 1)); "_${1%61}"; printf "%s\\n" "${COMPREPLY[@]}"'
        file = os.path.join(TOP, "tools", f"{program.removesuffix('61')}.bash-completion")
        done = subprocess.run(["bash", "-c", script, "test_words.py", file, program, *line],
                              stdout=subprocess.PIPE, stderr=subprocess.DEVNULL, cwd=example("first"), check=False)
        return sorted(set(done.stdout.decode().split()))

    def test_completions(self):
        """Words for which options, reports, files or nothing are proposed."""
        for line, wanted in ((["--"], OPTIONS), (["--s"], ["--script", "--slit", "--srat"]), (["--report", "m"], ["map", "memory"]),
                             (["--report", ""], REPORTS), (["--report", "map,bu"], ["map,buddyinfo"]),
                             (["--report", "=", "z"], ["zonelists", "zones"]), (["--cmdline", "z"], ["zp.bin"]),
                             (["--script", "=", "z"], ["zp.bin"]), (["--report", "map", "z"], ["zp.bin"]), (["--make", ""], [])):
            self.check(f"bootmem {' '.join(line)}", self.completed("bootmem", *line), wanted)
        for line, wanted in ((["--"], OPTIONS61), (["--c"], ["--claims", "--cmdline"]), (["--report", ""], REPORTS61),
                             (["--report", "crash,c"], ["crash,claims", "crash,crash"]), (["--claims", "z"], ["zp.bin"]),
                             (["--claims", "=", "z"], ["zp.bin"]), (["--make", ""], [])):
            self.check(f"bootmem61 {' '.join(line)}", self.completed("bootmem61", *line), wanted)
        for line, wanted in ((["--"], AUDIT), (["--la57", "z"], ["zp.bin"]), (["zp.bin", "--"], [])):
            self.check(f"bootaudit {' '.join(line)}", self.completed("bootaudit", *line), wanted)

    def test_tools(self):
        """For each tool: the options of its --help, values, files, and after -- the words of bootmem."""
        path = os.path.join(TOP, "tools", "bootmem-tools.bash-completion")
        named = re.search(r"^complete -F _bootmem_tool (.*?)\Z", text_of(path), re.MULTILINE | re.DOTALL).group(1).replace("\\", " ").split()
        tools = re.findall(r"[\w-]+", " ".join(re.findall(r'^tools="(.*)"$', text("tools", "install.sh"), re.MULTILINE)))
        self.check("the tools that it is for", sorted(named), sorted({*tools, "bootmem-collect", "collect.sh"} - {"tools"}))
        script = ('. "$1"; PATH=$2:$PATH; shift 2; COMP_WORDS=("$@"); COMP_CWORD=$(($# - 1)); _bootmem_tool "$1"; '
                  'printf "%s\\n" "${COMPREPLY[@]}"')
        for line, wanted in ((["zp-from-log", "--e"], ["--e820ext", "--efi"]), (["bootmem-draw", "--fr"], ["--from"]),
                             (["bootmem-draw", "--from", ""], []), (["bootmem-draw", "--output", "z"], ["zp.bin"]),
                             (["bootmem-draw", "z"], ["zp.bin"]), (["bootmem-draw", "--title", "x", "--", "--sr"], ["--srat"]),
                             (["bootmem-draw", "--", "--srat", "z"], ["zp.bin"]), (["bootmem-linux", "--pages", "z"], []),
                             (["bootmem-diff", "--report", "map,z"], ["map,zones", "map,zonelists"]),
                             (["collect.sh", "--p"], ["--proc"]), (["bootmem-fleet", "--he"], ["--help"]),
                             (["boot-example", "--timeout", "z"], []), (["boot-example", "--line", "x", "--", "qemu", "z"], ["zp.bin"])):
            done = subprocess.run(["bash", "-c", script, "test_words.py", path, os.path.join(TOP, "tools"), *line], stdout=subprocess.PIPE,
                                  stderr=subprocess.PIPE, cwd=example("first"), check=False)
            self.check(" ".join(line), (sorted(done.stdout.decode().split()), done.stderr), (sorted(wanted), b""))


if __name__ == "__main__":
    unittest.main()
