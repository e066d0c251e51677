#!/bin/sh
# library.sh [PROGRAM]: the library against the program, and from C, Rust and Python. Every report of every machine of examples/ through the
# library is the very bytes of the program, with its status and its line, and what it hands over as values is what the program's text
# says. The calls with a profile are compared with bootmem61, which lies beside PROGRAM. Then each allocation fails in turn. Then come the layout of the structs, the example in C, the tests that TOOLS.md shows, 'cargo
# test' and the unit tests of Python. What lacks its tool is left out, with a line. Finally prints 'N passed, M failed'.
. "$(dirname "$0")/counted.sh"
program=$(built "${1:-$top/bootmem}") || exit 2
program61=$(built "$(dirname "$program")/bootmem61") || exit 2
cd "$top" || exit 1
[ -f libbootmem.a ] || {
	echo "library.sh: there is no $top/libbootmem.a: 'make lib' builds it" >&2
	exit 2
}

# has TOOL: it is there, or a line says what is left out
has() {
	command -v "$1" >/dev/null 2>&1 && return
	echo "library.sh: no $1: left out $2"
	return 1
}

# shown LANGUAGE: the block of docs/TOOLS.md in this language
shown() {
	sed -n "/^\`\`\`$1\$/,/^\`\`\`\$/p" docs/TOOLS.md | sed '1d;$d'
}

# expected PROGRAM NAME WORD..: what by_library.c prints of these values, from the program's text, and the status. A zone has no free frames. A
# node is one that has zones, with its domain if it has one.
expected() {
	by=$1
	name=$2
	shift 2
	case $name in
	nodes) list=nodes,zones ;;
	*) list=$name ;;
	esac
	(cd "$folder" && "$by" --report "$list" "$@" 2>/dev/null; echo "status $?") | case $name in
	zones) sed 's/ free [0-9]*$//' ;;
	nodes)
		awk '/^domain / { domain[$4] = " domain " $2 }
			/^Node / { node = $2 + 0; if (!seen[node]++) print "node " node domain[node] }
			/^status / { print }'
		;;
	*) cat ;;
	esac
}

# values FOLDER NAME WORD..: what the library hands over as values is what the program's report NAME says, with its status
values() {
	folder=$1
	report=$2
	shift 2
	expected "$program" "$report" "$@" >"$work/out"
	(cd "$folder" && "$work/by_library" --values "$report" "$@"; echo "status $?") >"$work/got"
	ok "$folder: the values of $report, of $*" cmp "$work/got" "$work/out"
	[ "$report" = map ] || values_as "$folder" "$report" "$@"
}

# values_as FOLDER NAME WORD..: like values, with the profile of Linux 6.1 and the program bootmem61
values_as() {
	folder=$1
	report=$2
	shift 2
	expected "$program61" "$report" "$@" >"$work/out"
	(cd "$folder" && "$work/by_library" --as 1 --values "$report" "$@"; echo "status $?") >"$work/got"
	ok "$folder: the values of $report by Linux 6.1, of $*" cmp "$work/got" "$work/out"
}

# reports_as FOLDER WORD..: by each profile the call's reports, its line and its status are those of the profile's program
reports_as() {
	folder=$1
	shift
	for by in "$program" "$program61"; do
		number=0
		[ "$by" = "$program" ] || number=1
		(cd "$folder" && "$by" "$@" >"$work/out" 2>"$work/err"; echo "status $?" >>"$work/err")
		(cd "$folder" && "$work/by_library" --as $number "$@" >"$work/got" 2>"$work/why"; echo "status $?" >>"$work/why")
		ok "$folder: profile $number, $*" cmp "$work/got" "$work/out"
		ok "$folder: profile $number, $*: the line" cmp "$work/why" "$work/err"
	done
}

reports=$(sed -n 's/^report //p' tools/bootmem_tools/words.txt)
all=$(echo "$reports" | tr '\n' ',' | sed 's/,$//')
values="map crash memory nodes zones blocks"

# of the names in the archive the exports alone are seen, and they are those of the header
is "names" "$(nm -g --defined-only libbootmem.a | sed -n 's/.* T //p' | sort | tr '\n' ' ')" \
	"$(sed -n 's/^[a-z0-9_]* \(bootmem_[a-z_]*\)(.*/\1/p' include/bootmem.h | sort | tr '\n' ' ')"

if has "${CC:-cc}" "the program's bytes and the example in C"; then
	cc="${CC:-cc} -Wall -Wextra -Werror -Iinclude"
	ok "by_library.c" $cc -O1 tests/by_library.c libbootmem.a -o "$work/by_library"
	ok "the header in C++" $cc -x c++ -fsyntax-only include/bootmem.h
	for folder in examples/*/ examples/*/replay/; do
		[ -f "$folder/zp.bin" ] || continue
		words=zp.bin
		[ ! -f "$folder/words" ] || words=$(cat "$folder/words")
		for report in $reports; do
			# shellcheck disable=SC2086 # the words are separated by blanks
			(cd "$folder" && "$program" --report "$report" $words >"$work/out" 2>"$work/err"; echo "status $?" >>"$work/err")
			# shellcheck disable=SC2086
			(cd "$folder" && "$work/by_library" --report "$report" $words >"$work/got" 2>"$work/why"; echo "status $?" >>"$work/why")
			ok "$folder: $report" cmp "$work/got" "$work/out"
			ok "$folder: $report: the line" cmp "$work/why" "$work/err"
		done
		for report in $values; do
			# shellcheck disable=SC2086
			values "$folder" "$report" $words
		done
		# shellcheck disable=SC2086
		reports_as "$folder" --report "$all" $words
	done
	# a SLIT without an SRAT and with one, of two wrong lengths, and another table in its place
	slit=examples/srat-slit/slit.bin
	head -c -1 "$slit" >"$work/short"
	cat "$slit" "$work/short" >"$work/long"
	for words in "zp.bin" "--srat srat.bin zp.bin"; do
		for table in slit.bin "$work/short" "$work/long" srat.bin; do
			# shellcheck disable=SC2086
			(cd examples/srat-slit && "$program" --report zonelists --slit "$table" $words >"$work/out" 2>"$work/err"; echo "status $?" >>"$work/err")
			# shellcheck disable=SC2086
			(cd examples/srat-slit && "$work/by_library" --report zonelists --slit "$table" $words >"$work/got" 2>"$work/why"; echo "status $?" >>"$work/why")
			ok "the SLIT $(basename "$table"), $words" cmp "$work/got" "$work/out"
			ok "the SLIT $(basename "$table"), $words: the line" cmp "$work/why" "$work/err"
			# shellcheck disable=SC2086
			values examples/srat-slit nodes --slit "$table" $words
		done
	done
	for words in --none "" zp.bin "--report map" "--make 3" "--report none zp.bin" "--make 3 --srat README.md"; do
		# shellcheck disable=SC2086
		(cd examples && "$program" $words >"$work/out" 2>"$work/err"; echo "status $?" >>"$work/err")
		# shellcheck disable=SC2086
		(cd examples && "$work/by_library" $words >"$work/got" 2>"$work/why"; echo "status $?" >>"$work/why")
		ok "words '$words'" cmp "$work/got" "$work/out"
		ok "words '$words': the line" cmp "$work/why" "$work/err"
	done
	for report in $values; do
		values examples "$report" --none
		values examples "$report" zp.bin
		values examples "$report" README.md
		values examples/first "$report" --srat zp.bin zp.bin
		values examples/first "$report" --kernel 0x1000000,0x3400000 --la57 zp.bin
	done
	# the early claims, as only bootmem61 reads them, and a number without a profile
	printf '%s\n' 'reserve 1 0x1000000 0x3400000' 'alloc 2 64K 4K' 'free 1' >"$work/claims"
	printf '%s\n' 'sections' >"$work/wrong"
	for words in "--claims $work/claims zp.bin" "--claims $work/wrong zp.bin" "--claims none zp.bin"; do
		# shellcheck disable=SC2086
		reports_as examples/first --report claims,owners $words
		for report in $values; do
			# shellcheck disable=SC2086
			[ "$report" = map ] || values_as examples/first "$report" $words
		done
	done
	for words in --none "" zp.bin "--make 3" "--report none zp.bin"; do
		# shellcheck disable=SC2086
		reports_as examples $words
	done
	for number in 2 4294967295; do
		status=0
		"$work/by_library" --as $number examples/first/zp.bin >"$work/got" 2>&1 || status=$?
		is "profile $number" "$status $(cat "$work/got")" "2 "
		for report in crash memory nodes zones blocks; do
			status=0
			"$work/by_library" --as $number --values "$report" examples/first/zp.bin >"$work/got" 2>&1 || status=$?
			is "profile $number: the values of $report" "$status $(cat "$work/got")" "2 "
		done
	done
	ok "out_of_memory.c" $cc -O1 tests/out_of_memory.c libbootmem.a -Wl,--wrap=malloc -Wl,--wrap=realloc -o "$work/out_of_memory"
	ok "each allocation fails in turn" "$work/out_of_memory"
	ok "layout.c" $cc tests/layout.c -o "$work/layout"
	for entries in 0 1 128; do
		ok "a zero page of $entries entries" "$work/layout" "$entries"
	done
	status=0
	"$work/layout" 129 || status=$?
	is "a zero page of 129 entries" "$status" 2
	ok "check_table.c" $cc bindings/c/check_table.c libbootmem.a -o "$work/check_table"
	is "check_table" "$("$work/check_table" examples/first/zp.bin crashkernel=32M 2>&1 | tail -n 1)" "crash area of 33554432 bytes at 0x5000000"
	is "check_table with no room" "$("$work/check_table" examples/first/zp.bin crashkernel=1G 2>&1 | tail -n 1)" \
		"no crash area: no free range fits it"
	is "check_table of a bad line" "$("$work/check_table" examples/first/zp.bin mem=x 2>&1)" "bootmem: cmdline: word 1: mem"
fi
# the tests that docs/TOOLS.md shows
if has "${CC:-cc}" "the test in C of TOOLS.md"; then
	shown c >"$work/shown.c"
	ok "the test in C of TOOLS.md" $cc "$work/shown.c" libbootmem.a -o "$work/shown"
	ok "the test in C of TOOLS.md passes" "$work/shown"
fi
if has cargo "the tests in Rust"; then
	mkdir -p "$work/vmm/src" "$work/vmm/tests"
	shown toml | sed "s,/usr/local/share/bootmem,$top," >"$work/vmm/Cargo.toml"
	: >"$work/vmm/src/lib.rs"
	shown rust >"$work/vmm/tests/shown.rs"
	ok "the test in Rust of TOOLS.md" env BOOTMEM_LIB_DIR="$top" CARGO_TARGET_DIR="$work/target" \
		cargo test --offline --quiet --manifest-path "$work/vmm/Cargo.toml"
	BOOTMEM_LIB_DIR=$work/vmm CARGO_TARGET_DIR=$work/target \
		cargo check --offline --quiet --manifest-path bindings/rust/Cargo.toml 2>"$work/why" && echo built >>"$work/why"
	is "what the build says without the library" "$(grep -c -e '^  bootmem: there is no libbootmem.a in ' -e 'set BOOTMEM_LIB_DIR' -e 'package bootmem-dev' \
		-e "program 'bootmem-json'" -e '^built' "$work/why")" 4
	ok "cargo test" env BOOTMEM_LIB_DIR="$top" CARGO_TARGET_DIR="$work/target" cargo test --offline --quiet --manifest-path bindings/rust/Cargo.toml
fi
if has python3 "the tests in Python"; then
	{
		shown python
		echo
		echo "test_a_crash_area_fits()"
	} >"$work/shown.py"
	ok "the test in Python of TOOLS.md" env BOOTMEM_LIB="$top/libbootmem.so" PYTHONPATH=tools PYTHONDONTWRITEBYTECODE=1 \
		python3 "$work/shown.py"
	ok "python3 -m unittest" env BOOTMEM_LIB="$top/libbootmem.so" PYTHONDONTWRITEBYTECODE=1 python3 -m unittest discover -s tests -p test_library.py
fi
version=$(sed -n 's/^VERSION := //p' Makefile)
is "the crate's version" "$(sed -n 's/^version = "\(.*\)"/\1/p' bindings/rust/Cargo.toml)" "$version"

counted
