"""bootmem-fleet: boots many machines with bootmem and prints one line for each."""

from __future__ import annotations

import argparse
import glob
import json
import multiprocessing
import os
import subprocess
import sys
import tempfile
from typing import NamedTuple, NoReturn

from bootmem_tools import (
    as_linux, command_line, crash, linux_log, machine, next_step, notes, objects, ranges, reports,
    runner, tool
)

NAME = "bootmem-fleet"
USAGE = """bootmem-fleet [--json | --columns] [--cmdline-add WORDS]
                     [--cmdline-drop NAME].. [--greatest]
                     [--kernel BASE,SIZE] [--jobs N]
                     [--verbose] [--raw] [--pages 4K|2M|1G]
                     [--brk BYTES] [--x2apic] [--cma] [--program P] FOLDER.."""
ABOUT = """Boots the machines of folders that bootmem-collect (collect.sh) gathered, as Linux 6.1 does, one per processor at a time, and
prints a line for each, in the order of the words, with a tab between each two columns:

  folder   as it was given
  status   that of bootmem; 0 if it printed its reports
  line     what it said on standard error, or why Linux 6.1 panics, or -
  runs     of the map
  usable   frames of 4,096 bytes
  free     of them in free blocks, without what the kernel claims early
  crash    the area, or why there is none: none, no area, in use, low failed
  low      the area's low part
  numa     whether the SRAT is used, or why not
  nodes    how many have memory
  plain, high
           with --greatest: the greatest area that fits in these two forms
           (crashkernel=S and S,high), in MiB

If bootmem ended with another status than 0, or a folder has no such thing, a column has -."""
EPILOG = f"""A folder has zp.bin, and if they are there e820ext.bin, cmdline, srat.bin, slit.bin, efi.bin, and kernel (or words, as under
examples) with the place of the kernel's image; without it the tool assumes 16 MiB to 48 MiB, and says so.
If it has log, with the kernel's log from the boot's start on, the tool takes from it what
bootmem-linux --log does, except with --raw.

The inputs are read as that kernel reads them, and what it claims before the crash area is claimed, as
bootmem-linux does; --verbose prints what was changed or assumed, or can't be known, of each machine. With --raw the
program reads the inputs itself, and nothing more is claimed than bootmem claims.

--cmdline-drop takes the words NAME and NAME=.. out of each line, --cmdline-add appends WORDS. What is wrong with WORDS is
printed once on standard error.

--json prints one JSON object a line instead (FORMATS.md of the documents: "A fleet as JSON").

{runner.FINDING_RAW}

exit status: 0 if each run ended with 0, 1 if one didn't, 2 for words that aren't those above, 3 if each run ended with 0 and
Linux 6.1 is known to panic on a machine, 5 if none of this and WORDS of --cmdline-add ask for a
crash area but the kernel takes nothing of it from them on any machine, 4 if none of this and the
area that a machine's line asks for doesn't fit there.

examples:
  bootmem-fleet host*/
  bootmem-fleet --greatest host*/
  bootmem-fleet --cmdline-add crashkernel=512M,high host*/"""

FILES = (("--e820ext", "e820ext.bin"), ("--cmdline", "cmdline"), ("--srat", "srat.bin"), ("--efi", "efi.bin"), ("--slit", "slit.bin"))
ASKED = ["map", "summary", "crash", "nodes"]
PANICS = 3  # the status if each run ended with 0, but Linux 6.1 is known to panic on a machine
LACKS = 4  # the status if it isn't 1, 3 or 5, but an area that is asked for doesn't fit
UNTAKEN = 5  # the status if it isn't 1 or 3, but the area that --cmdline-add asks for counts on no machine
LACKING = ("no area", "in use", "low failed")  # outcomes of an area that doesn't fit
FORMS = {"plain": "", "high": ",high"}
COLUMNS = ["folder", "status", "line", "runs", "usable", "free", "crash", "low", "numa", "nodes"]


class Plan(NamedTuple):
    """What all runs have in common."""

    program: str
    add: str | None
    drop: list[str]
    kernel: str | None
    is_raw: bool = False
    settings: as_linux.Settings = as_linux.Settings()
    greatest: bool = False
    asks: bool = False  # whether `add` asks for a crash area


class Answer(NamedTuple):
    """The outcome for a folder: its row, whether the image's place was assumed, the notes on its
    inputs, and whether the kernel takes its crash area from the words that were added."""

    row: objects.Object
    assumed: bool
    said: list[str]
    panics: bool = False
    note: str | None = None
    is_taken: bool = False


def read_words(words: list[str]) -> argparse.Namespace:
    """Returns the tool's words."""
    parser = tool.new_parser(NAME, USAGE, ABOUT, EPILOG)
    parser.add_argument("folders", metavar="FOLDER", nargs="+", help="what bootmem-collect gathered of a machine")
    form = parser.add_mutually_exclusive_group()
    form.add_argument("--json", action="store_true", help="one JSON object a line")
    form.add_argument("--columns", action="store_true", help="first a line with the names of the columns")
    parser.add_argument("--cmdline-add", metavar="WORDS", help="append WORDS to each command line")
    parser.add_argument("--cmdline-drop", metavar="NAME", action="append", default=[], help="first take this option out of it")
    parser.add_argument("--greatest", action="store_true", help="also find the greatest areas that fit, by some ten boots each")
    parser.add_argument("--kernel", metavar="BASE,SIZE", help="where every kernel's image lies")
    parser.add_argument("--jobs", metavar="N", type=int, help="the number of runs at once")
    parser.add_argument("--verbose", action="store_true", help="print what was changed or assumed, or can't be known")
    as_linux.add_raw(parser)
    runner.add_program(parser)
    given = parser.parse_args(words)
    given.settings = as_linux.settings_of(given, parser)
    if given.jobs is not None and given.jobs < 1:
        parser.error(f"--jobs {given.jobs}: at least 1")
    return given


def kernel_words(folder: str, plan: Plan) -> list[str]:
    """Returns the words for the place of the kernel's image, if the plan, or the folder's file kernel
    or words, gives it."""
    if plan.kernel:
        return ["--kernel", plan.kernel]
    told = machine.text_in(folder, "kernel")
    if told is not None:
        return ["--kernel", told.strip()]
    words = (machine.text_in(folder, "words") or "").split()
    return words[words.index("--kernel"):][:2] if "--kernel" in words else []


def dropped(line: str, names: list[str]) -> str:
    """Returns the line without the words of these names. Words are separated by blanks outside
    quotation marks."""
    words, quoted = [""], False
    for letter in line:
        quoted ^= letter == '"'
        if letter in " \t\n\v\f\r" and not quoted:
            words.append("")
        else:
            words[-1] += letter
    return " ".join(word for word in words if word and word.lstrip('"').split("=", 1)[0] not in names)


def line_of(folder: str, plan: Plan) -> tuple[bytes, int]:
    """Returns the folder's line with the plan's changes, and the place where the added words begin."""
    path = os.path.join(folder, "cmdline")
    line = b""
    if os.path.exists(path):
        line = command_line.read_file(path).split(b"\0")[0].rstrip(b"\n")
    text = dropped(line.decode("latin-1"), plan.drop) if plan.drop else line.decode("latin-1")
    added = (plan.add or "").strip().encode("utf-8", "surrogateescape").decode("latin-1")
    made = f"{text} {added}".strip() if added else text
    return made.encode("latin-1") + b"\n", len(made) - len(added)


def takes_added(folder: str, plan: Plan, row: objects.Object) -> bool:
    """Returns whether the crash area of a folder's row is, at least in part, the one that the added
    words ask for."""
    if not row["crash"] or row["crash"]["outcome"] == "none":
        return False
    line, first = line_of(folder, plan)
    if b"crashkernel" not in line[:first]:
        return True
    extension = ["--e820ext", "e820ext.bin"]
    words = extension if os.path.exists(os.path.join(folder, extension[1])) else []
    total = command_line.total_by(plan.program, [*words, "zp.bin"], folder)
    return command_line.is_taken_from(line, first, total)


def run(folder: str, plan: Plan, names: list[str], words: list[str]) -> tuple[int, str, reports.Texts]:
    """Runs the program for these reports and words in the folder. Returns its status, its line on standard error, and the reports, which
    are none if the status isn't 0."""
    done = subprocess.run([plan.program, "--report", ",".join(names), *words], stdin=subprocess.DEVNULL,
                          stdout=subprocess.PIPE, stderr=subprocess.PIPE, cwd=folder, check=False)
    said = "".join(done.stderr.decode("utf-8", "replace").splitlines()[:1])
    if done.returncode != 0:
        return done.returncode, said, {}
    return 0, said, runner.texts_of(names, done.stdout.decode())


def answer_of(work: tuple[str, Plan]) -> Answer:
    """Returns the answer for one folder of the plan."""
    folder, plan = work
    if not os.path.isdir(folder):
        return Answer(row_of(folder, 2, "no folder", None), False, [])
    words = [word for option, name in FILES if os.path.exists(os.path.join(folder, name)) for word in (option, name)
             if not (plan.is_raw and option == "--slit")]
    try:
        return run_folder(folder, plan, words, kernel_words(folder, plan))
    except (tool.Trouble, OSError) as trouble:
        return Answer(row_of(folder, 2, tool.printable(str(trouble)), None), False, [])


def run_folder(folder: str, plan: Plan, words: list[str], kernel: list[str]) -> Answer:
    """Returns the answer for one folder, whose files these words name."""
    with tempfile.NamedTemporaryFile() as file:
        if plan.add or plan.drop:
            file.write(line_of(folder, plan)[0])
            file.flush()
            if "--cmdline" in words:
                words[words.index("--cmdline") + 1] = file.name
            else:
                words += ["--cmdline", file.name]
        words += [*kernel, "zp.bin"]
        told, said = (linux_log.NOTHING, []) if plan.is_raw else linux_log.in_folder(folder)
        plan = plan._replace(settings=plan.settings._replace(told=told))
        answer = boot_folder(folder, plan, words, kernel)
        answer = answer._replace(said=said + answer.said)
        if plan.asks:
            answer = answer._replace(is_taken=takes_added(folder, plan, answer.row))
        if plan.greatest and answer.row["status"] == 0:
            answer.row["greatest"] = greatest_of(folder, plan, notes.value_in(words, "--cmdline"), notes.value_in(kernel, "--kernel"))
        return answer


def boot_folder(folder: str, plan: Plan, words: list[str], kernel: list[str]) -> Answer:
    """Returns the answer for one folder from its boot with these words."""
    if plan.is_raw:
        return answer_for(folder, kernel, run(folder, plan, ASKED, words), [], None)
    with as_linux.prepared(plan.program, words, plan.settings, folder) as prepared:
        outcome = run(folder, plan, ASKED, prepared.words)
        return answer_for(folder, kernel, outcome, prepared.said, prepared.place)


def greatest_of(folder: str, plan: Plan, line: str | None, kernel: str | None) -> objects.Object:
    """Returns the greatest sizes in MiB that fit on a folder's machine in both forms, 0 if none does."""
    line = line if line is None or os.path.isabs(line) else os.path.join(folder, line)
    given = argparse.Namespace(machine=folder, program=plan.program, kernel=kernel, cmdline=line, e820ext=None, srat=None, slit=None, efi=None,
                               size=[], raw=plan.is_raw, settings=plan.settings)
    with crash.Machine(given) as own:
        own.progress.shown = False
        texts, stop = own.run("", ["map", "memory", "journal"])
        if stop:
            return dict.fromkeys(FORMS, 0)
        return {form: crash.greatest(own, texts, suffix)[0] for form, suffix in FORMS.items()}


def answer_for(folder: str, kernel: list[str], outcome: tuple[int, str, reports.Texts],
               said: list[str], place: str | None) -> Answer:
    """Returns the answer for the outcome of a folder's boot, with the notes on its inputs and on the
    image's place."""
    status, line, texts = outcome
    if status != 0:
        return Answer(row_of(folder, status, line, None), not kernel, said)
    why = next(machine.panics(texts), None)
    line = f"Linux 6.1 panics: {why}" if why else line
    note = place or notes.place_note(notes.value_in(kernel, "--kernel"), texts)
    row = row_of(folder, 0, line, objects.as_object(texts))
    return Answer(row, not kernel, said, why is not None, note)


def row_of(folder: str, status: int, line: str, found: objects.Object | None) -> objects.Object:
    """Returns the columns of a folder."""
    row: objects.Object = {"folder": folder, "status": status, "line": line or None, "runs": None, "usable": None, "free": None, "crash": None,
           "numa": None, "nodes": None}
    if found:
        nodes = {one["node"] for one in found["nodes"]["ranges"]}
        row.update({name: found["summary"][name] for name in ("runs", "usable", "free")}, crash=found["crash"],
                   numa={key: value for key, value in found["nodes"].items() if key in ("numa", "blocks", "frames")}, nodes=len(nodes))
    return row


def range_of(found: objects.Object) -> str:
    """Returns a range as the reports have it."""
    return f"{found['first']}..{found['last']}"


def columns(row: objects.Object, has_greatest: bool = False) -> list[str]:
    """Returns the texts of a row."""
    crash, numa = row["crash"], row["numa"]
    texts = [row[name] for name in ("folder", "status", "line", "runs", "usable", "free")]
    texts += [crash and (range_of(crash) if crash["outcome"] == "at" else crash["outcome"]), crash and crash["low"] and range_of(crash["low"])]
    texts += [numa and " ".join(str(part) for part in [numa["numa"], *numa.get("blocks", []), *([numa["frames"]] if "frames" in numa else [])])]
    greatest = row.get("greatest") or dict.fromkeys(FORMS)
    texts += [row["nodes"], *([greatest[form] for form in FORMS] if has_greatest else [])]
    return ["-" if text is None else str(text) for text in texts]


def outer_folders(folders: list[str]) -> list[str]:
    """Returns the folders without a zero page that contain folders with one."""
    pageless = [folder for folder in folders if os.path.isdir(folder) and not os.path.exists(os.path.join(folder, "zp.bin"))]
    return [folder for folder in pageless if glob.glob(os.path.join(glob.escape(folder), "*", "zp.bin"))]


def complaints(plan: Plan) -> list[str]:
    """Returns the complaints about the words that are added to every line, each once. They don't depend on the machine."""
    if not plan.add:
        return []
    total = command_line.Total(1 << 60, 1 << 60)
    reading = command_line.read_line(plan.add.encode("utf-8", "surrogateescape") + b"\n", lambda line: total)
    return list(dict.fromkeys([line for line in reading.changes if "left out" in line] + reading.notes))


class Tally:
    """A summary of the answers: whether a run failed, and whether a machine panics or lacks an area;
    for how many the image's place was assumed, and on how many the added words count."""

    def __init__(self) -> None:
        self.failed = self.panics = self.lacks = False
        self.assumed = self.done = self.taken = 0

    def add(self, answer: Answer) -> None:
        """Adds an answer."""
        area = answer.row["crash"]
        self.done += 1
        self.failed = self.failed or answer.row["status"] != 0
        self.panics = self.panics or answer.panics
        self.lacks = self.lacks or bool(area) and area["outcome"] in LACKING
        self.assumed += answer.assumed
        self.taken += answer.is_taken

    def status(self, plan: Plan) -> int:
        """Returns the exit status."""
        if self.failed:
            return 1
        if self.panics:
            return PANICS
        if plan.asks and not self.taken:
            return UNTAKEN
        return LACKS if self.lacks else 0

    def complain(self, plan: Plan) -> None:
        """Prints the notes that concern all folders together."""
        if self.assumed:
            tool.complain(NAME, f"of {self.assumed} of {self.done} folders nothing tells where the "
                          "kernel's image lies: 16 MiB to 48 MiB is assumed")
        if plan.asks and not self.taken:
            tool.complain(NAME, f"--cmdline-add {plan.add}: on none of {self.done} machines the "
                          "kernel takes a crash area from it")


def print_answer(answer: Answer, given: argparse.Namespace) -> None:
    """Prints the line for a folder, and the notes on it."""
    is_text = not given.json
    print("\t".join(columns(answer.row, given.greatest)) if is_text else json.dumps(answer.row))
    folder = answer.row["folder"]
    for line in [answer.note] * bool(answer.note) + answer.said * given.verbose:
        tool.complain(NAME, f"{folder}: {line}")


def say_first(given: argparse.Namespace, plan: Plan) -> None:
    """Prints what is wrong with the tool's words, before any folder is read."""
    for line in complaints(plan):
        tool.complain(NAME, f"--cmdline-add: {line}")
    for folder in outer_folders(given.folders):
        inner = os.path.join(folder, "*/")
        tool.complain(NAME, f"{folder}: it has no zp.bin, but its folders have: name these, as by "
                      f"{inner}")
        tool.say_next(next_step.for_page(NAME, folder))


def main(words: list[str]) -> int:
    """Prints a line for each folder, and returns the exit status."""
    given = read_words(words)
    named = runner.find_program(given.program, runner.OWN if given.raw else runner.LINUX)
    program, add = os.path.abspath(named), given.cmdline_add
    asks = command_line.asks_for_area(add or "")
    plan = Plan(program, add, given.cmdline_drop, given.kernel, given.raw, given.settings,
                given.greatest, asks)
    as_linux.refuse_itself(plan.program)
    folders = given.folders
    jobs = min(given.jobs or len(os.sched_getaffinity(0)), len(folders))
    say_first(given, plan)
    if given.columns:
        print("\t".join(COLUMNS + (list(FORMS) if given.greatest else [])))
    progress, tally = tool.Progress(NAME), Tally()
    work = [(folder, plan) for folder in folders]
    with multiprocessing.get_context("fork").Pool(jobs) as pool:
        for answer in pool.imap(answer_of, work, chunksize=max(1, min(16, len(folders) // jobs))):
            progress.clear()
            tally.add(answer)
            print_answer(answer, given)
            if not sys.stdout.isatty():
                progress.show(f"{tally.done} of {len(folders)} folders")
    progress.clear()
    tally.complain(plan)
    return tally.status(plan)


def command() -> NoReturn:
    """Runs the tool as a command."""
    tool.run_tool(NAME, main, failure=2)


if __name__ == "__main__":
    command()
