#!/usr/bin/env python3
"""prove.py GATE CRATE [FLAG..]: proves this checkout's CRATE over the libraries that `rt ci` proved in another checkout.

GATE is the top of a checkout in which `rt ci` ran or is running. It has a crate's library as soon as the crate is proved; the lowest ones are there within
minutes. So the proofs of a crate can be changed here without checking the crates below it. Only the files of CRATE are read here; the crates below it are
those of GATE. The crate's folder out/over-gate keeps the work: a further run checks only what changed, unless --anew is given. The other FLAGS are those
of the compiler's `check`: --only FUNCTION checks one function, --allow-holes prints the open goals.

The status is the compiler's, which is 0 if the crate is proved, or 3 if a library isn't there yet. This tool helps while writing proofs. What counts are
`rt check` and the gate.
"""

import os
import shutil
import subprocess
import sys

TOP = os.path.abspath(os.path.join(os.path.dirname(os.path.abspath(__file__)), "..", ".."))


def crates():
    """The crates of crates.txt by name, each with the libraries that it uses."""
    with open(f"{TOP}/crates.txt", encoding="utf-8") as file:
        lines = [line.split("#")[0].strip() for line in file]
    return {line.split(":")[0].split()[0]: line.split(":")[1].split() for line in lines if line}


def below(names, used):
    """The crates of the repository among these names, and all crates below them."""
    found, left = set(), list(names)
    while left:
        name = left.pop()
        if name in used and name not in found:
            found.add(name)
            left += used[name]
    return sorted(found)


def command(gate, crate, flags):
    """The compiler's call as `rt ci` makes it, with these flags. Exits with status 3 if a library isn't there yet."""
    used = crates()
    kit = os.path.dirname(subprocess.run(["rt", "doc"], check=True, capture_output=True, text=True).stdout.strip())
    places = {name: f"{gate}/crates/{name}/out/rlib" for name in below(used[crate], used)}
    missing = [name for name, place in places.items() if not os.path.isdir(f"{place}/{name}.rlib")]
    if missing:
        print(f"prove.py: not proved yet in {gate}: {' '.join(missing)}", file=sys.stderr)
        sys.exit(3)
    words = [f"{kit}/bin/rattle", "check", "--crate-name", crate, "src/main.rt" if os.path.exists("src/main.rt") else "src/lib.rt"]
    words += ["--extern", f"std={kit}/rlibs/std.rlib", "-L", f"dependency={kit}/rlibs"]
    for name in used[crate]:
        words += ["--extern", f"{name}={places.get(name, f'{kit}/rlibs')}/{name}.rlib"]
    for place in places.values():
        words += ["-L", f"dependency={place}"]
    words += ["--antt-project", f"{kit}/rattle/logic/antt-project.json", "--logic-built", f"{kit}/logic_built", "--incremental", "out/over-gate"]
    return words + ([] if "--jobs" in flags else ["--jobs", "1"]) + flags


def main():
    if len(sys.argv) < 3 or sys.argv[2] not in crates():
        sys.exit(__doc__)
    gate, crate, flags = os.path.abspath(sys.argv[1]), sys.argv[2], sys.argv[3:]
    os.chdir(f"{TOP}/crates/{crate}")
    if "--anew" in flags:
        flags.remove("--anew")
        shutil.rmtree("out/over-gate", ignore_errors=True)
    os.makedirs("out/over-gate", exist_ok=True)
    sys.exit(subprocess.run(command(gate, crate, flags), check=False).returncode)


if __name__ == "__main__":
    main()
