#!/bin/sh
# build.sh CRATE PROGRAM WORD..: proves the crate and those below it, builds its program, and runs it with these words, which must end with status 0.
# Then it writes the program to PROGRAM, and the commit and the kit (the toolchain's version) to PROGRAM.built. Standard error shows the progress. The
# prover's output goes to crates/NAME/out/build.log of each crate; if something fails, the end of that log goes to standard error.
set -eu
unset CDPATH
rt=${RT:-rt}
crate=$1
program=$2
shift 2
top=$(cd "$(dirname "$0")/.." && pwd)
log=$top/crates/$crate/out/build.log

"$top/tools/toolchain.sh"
mkdir -p "$top/crates/$crate/out"
case $crate in
bootaudit) cost="some minutes" ;;
bootmem61_cli) cost="some 35 minutes of processor time, and little if bootmem is built" ;;
*) cost="some 35 minutes of processor time, and 10 minutes or more" ;;
esac
echo "$program: proving and building it; the first time this takes $cost" >&2
"$top/tools/prove_below.py" "$crate" || exit 1
if ! (cd "$top/crates/$crate" && exec "$rt" run -- "$@") >"$log" 2>&1; then
	tail -n 30 "$log" >&2
	echo "$program: not built; the whole log is $log" >&2
	exit 1
fi
cp "$top/crates/$crate/out/$crate" "$program"
# what --version of the installed program prints
"$top/tools/built.sh" >"$program.built"
