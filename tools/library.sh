#!/bin/sh
# library.sh VERSION [gate]: proves bootmem_c and the crates below it, and makes libbootmem.a and libbootmem.so.VERSION at the top. The
# archive has one object: the crate's code and the toolchain's calls of malloc, realloc and free. Only the exported names are visible.
# libbootmem.built has the commit and the kit (the toolchain's version).
# With "gate" it uses the libraries that `rt ci` proved and left in this clone, so that only bootmem_c is proved again. If none of
# them is there, because the kit leaves none, the status is 3. If only some are there, that is a fault, and the status is 1.
set -eu
unset CDPATH
rt=${RT:-rt}
cc=${CC:-cc}
version=$1
top=$(cd "$(dirname "$0")/.." && pwd)
crate=$top/crates/bootmem_c
log=$crate/out/build.log
exports="bootmem_run bootmem_map bootmem_crash bootmem_memory bootmem_nodes bootmem_zones
	bootmem_blocks bootmem_run_as bootmem_crash_as bootmem_memory_as bootmem_nodes_as bootmem_zones_as
	bootmem_blocks_as bootmem_version"

kit=$(dirname "$("$rt" doc)")

# place NAME: prints the path of this library: that of the gate, or of the kit if no crate here has the name
place() {
	if [ -d "$top/crates/$1" ]; then
		echo "$top/crates/$1/out/rlib/$1.rlib"
	else
		echo "$kit/rlibs/$1.rlib"
	fi
}

# over_gate NAME..: runs the compiler as `rt lib` does, but over the gate's libraries; NAME.. are those that bootmem_c uses itself
over_gate() {
	cd "$crate"
	for name in "$@"; do
		set -- "$@" --extern "$name=$(place "$name")"
		shift
	done
	for below in "$top"/crates/*/out/rlib; do
		set -- "$@" -L "dependency=$below"
	done
	exec "$kit/bin/rattle" build --crate-name bootmem_c src/lib.rt --crate-type staticlib --extern "std=$kit/rlibs/std.rlib" \
		-L "dependency=$kit/rlibs" "$@" --antt-project "$kit/rattle/logic/antt-project.json" --logic-built "$kit/logic_built" \
		--links bootmem_c= --toolchain "$kit/toolchain" --backend llvm --jobs 2 -o out/libbootmem_c.a
}

"$top/tools/toolchain.sh"
mkdir -p "$crate/out"
status=0
if [ "${2:-}" = gate ]; then
	names=$(sed -n 's/^bootmem_c staticlib: //p' "$top/crates.txt")
	found=
	missing=
	for name in $names; do
		if [ -d "$(place "$name")" ]; then
			[ ! -d "$top/crates/$name" ] || found="$found $name"
		else
			missing="$missing $name"
		fi
	done
	if [ -n "$missing" ]; then
		echo "libbootmem.a: rt ci left no library of$missing" >&2
		[ -z "$found" ] || exit 1
		exit 3
	fi
	# shellcheck disable=SC2086 # a word each
	(over_gate $names) >"$log" 2>&1 || status=$?
else
	echo "libbootmem.a: proving and building it; the first time this takes some 35 minutes of processor time" >&2
	"$top/tools/prove_below.py" bootmem_c || exit 1
	(cd "$crate" && exec "$rt" lib) >"$log" 2>&1 || status=$?
fi
if [ "$status" != 0 ]; then
	tail -n 30 "$log" >&2
	echo "libbootmem.a: not built; the whole log is $log" >&2
	exit 1
fi
work=$(mktemp -d)
trap 'rm -rf "$work"' EXIT
ld -r -o "$work/bootmem.o" --whole-archive "$crate/out/libbootmem_c.a" --no-whole-archive "$kit/c/liblibc_c.a" "$kit/c/libos_c.a"
# shellcheck disable=SC2046 # a word each
objcopy $(printf -- '--keep-global-symbol=%s ' $exports) "$work/bootmem.o"
rm -f "$top/libbootmem.a"
ar rcs "$top/libbootmem.a" "$work/bootmem.o"
"$cc" -shared -Wl,-soname,libbootmem.so.0 -Wl,-z,defs -o "$top/libbootmem.so.$version" "$work/bootmem.o"
for name in libbootmem.so.0 libbootmem.so; do
	ln -sf "libbootmem.so.$version" "$top/$name"
done
"$top/tools/built.sh" >"$top/libbootmem.built"
