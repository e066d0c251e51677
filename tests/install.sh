#!/bin/sh
# install.sh: installs ./bootmem, ./bootmem61 and ./bootaudit into a folder as 'make install' does, and looks that what the manual pages and the
# README point to is there, that the programs and the tools run from there, that an installation proves nothing, and that 'make uninstall'
# leaves nothing. Prints a line for each difference, and finally 'N passed, M failed'.
. "$(dirname "$0")/counted.sh"
cd "$top" || exit 1
programs="bootmem bootmem61 bootaudit"
for program in $programs; do
	built "$program" >/dev/null || exit 2
done
make=${MAKE:-make}

# there WHAT FILE..: each of the files is there
there() {
	what=$1
	shift
	for file; do
		ok "$what: $file isn't there" test -e "$file"
	done
}

# installed PREFIX [WORD..]: make's answer, as it would be with a tree of these sources alone and no toolchain
installed() {
	prefix=$1
	shift
	"$make" --no-print-directory -C "$work/tree" install RT="$work/none" DESTDIR="$work/root" PREFIX="$prefix" "$@"
}

# a tree without crates: none of what is installed is made of them
mkdir -p "$work/tree/crates" "$work/root"
cp -r Makefile README.md CHANGELOG.md CONTRIBUTING.md bootmem.1 bootmem61.1 bootaudit.1 bootmem.5 crates.txt docs examples tools "$work/tree" &&
	cp bootmem bootmem61 bootaudit "$work/tree" || exit 1
root=$work/root/opt/it
share=$root/share

ok "make install" installed /opt/it
is "make install says" "$(cat "$work/said")" ""
there "the program" "$root/bin/bootmem" "$root/libexec/bootmem/explain" "$root/bin/bootmem-collect" "$share/man/man1/bootmem.1" "$share/man/man5/bootmem.5"
there "the second profile" "$root/bin/bootmem61" "$share/man/man1/bootmem61.1" "$share/bash-completion/completions/bootmem61"
there "the audit" "$root/bin/bootaudit" "$share/man/man1/bootaudit.1" "$share/bash-completion/completions/bootaudit"
if command -v bash >/dev/null 2>&1; then
	is "the installed completion" "$(bash -c '. "$1"; COMP_WORDS=(bootmem --sr); COMP_CWORD=1; _bootmem; echo "${COMPREPLY[*]}"' \
		install.sh "$share/bash-completion/completions/bootmem" 2>/dev/null)" --srat
	is "the installed completion of bootmem61" "$(bash -c '. "$1"; COMP_WORDS=(bootmem61 --cl); COMP_CWORD=1; _bootmem; echo "${COMPREPLY[*]}"' \
		install.sh "$share/bash-completion/completions/bootmem61" 2>/dev/null)" --claims
	is "the installed completion of a tool" "$(PATH=$root/bin:$PATH bash -c '. "$1"; COMP_WORDS=(bootmem-draw --tit); COMP_CWORD=1
		_bootmem_tool bootmem-draw; echo "${COMPREPLY[*]}"' install.sh "$share/bash-completion/completions/bootmem-draw" 2>/dev/null)" --title
	is "the words of bootmem after --" "$(PATH=$root/bin:$PATH bash -c '. "$1"; COMP_WORDS=(bootmem-draw -- --sr); COMP_CWORD=2
		_bootmem_tool bootmem-draw; echo "${COMPREPLY[*]}"' install.sh "$share/bash-completion/completions/bootmem-draw" 2>/dev/null)" --srat
fi
is "the first run" "$("$root/bin/bootmem" --report map "$share/bootmem/examples/first/zp.bin")" "$(cat examples/first/map.txt)"
is "the first run of bootmem61" "$("$root/bin/bootmem61" --report map "$share/bootmem/examples/first/zp.bin")" "$(cat examples/first/map.txt)"

# the installed commands: --help and --version are theirs, all else is the program's, with one more line after status 2 and 3
for program in $programs; do
	there "$program" "$root/libexec/bootmem/$program"
	ok "the proved $program" cmp "$program" "$root/libexec/bootmem/$program"
	is "$program --help" "$("$root/bin/$program" --help 2>&1)" "$(cat "tools/$program.help")"
	is "$program -h" "$("$root/bin/$program" -h 2>&1)" "$(cat "tools/$program.help")"
	is "$program --version" "$("$root/bin/$program" --version 2>&1 | sed 's/(commit.*kit.*)$/(built)/')" \
		"$program $(sed -n 's/^VERSION := //p' Makefile) (built)"
done
for option in $(sed -n 's/^option \([^ ]*\).*/--\1/p' tools/bootmem_tools/words.txt); do
	ok "bootmem --help has $option" grep -q "^ *$option " tools/bootmem.help
done
for option in $(sed -n 's/^option\(61\)* \([^ ]*\).*/--\2/p' tools/bootmem_tools/words.txt); do
	ok "bootmem61 --help has $option" grep -q "^ *$option " tools/bootmem61.help
done

# reports_told PROGRAM: prints the names of the reports in its help
reports_told() {
	tr '\n' ' ' <"tools/$1.help" | sed 's/.* reports: \(.*\) exit status.*/\1/' | tr -s ' ' | sed 's/ $//'
}
is "bootmem --help has the reports" "$(reports_told bootmem)" "$(sed -n 's/^report //p' tools/bootmem_tools/words.txt | paste -s -d ' ')"
is "bootmem61 --help has the reports" "$(reports_told bootmem61)" "$(sed -n 's/^report\(61\)* //p' tools/bootmem_tools/words.txt | paste -s -d ' ')"

# answers STATUS LINES WORD..: the installed program, bootmem unless another one is set, ends with the status, writes nothing, and says
# these lines
program=bootmem
answers() {
	wanted="$1: $2"
	shift 2
	out=$("$root/bin/$program" "$@" 2>"$work/err")
	is "$program $*" "$?: $(cat "$work/err")$out" "$wanted"
}
answers 2 "bootmem: usage
bootmem: no zero page is named: bootmem [OPTION].. ZEROPAGE; 'bootmem --help' lists the options"
answers 2 "bootmem: usage
bootmem: --report maps: no such report; did you mean map?" --report maps zp.bin
answers 3 "bootmem: cannot read $work/none
bootmem: $work/none: it doesn't exist" "$work/none"
answers 3 "bootmem: cannot read $work
bootmem: $work: it is a folder" "$work"
answers 5 "bootmem: zeropage: wrong length" /dev/null
answers 2 "bootmem: usage
bootmem: --claims: no such option; bootmem61 has it" --claims early zp.bin
program=bootmem61
answers 2 "bootmem61: usage
bootmem61: no zero page is named: bootmem61 [OPTION].. ZEROPAGE; 'bootmem61 --help' lists the options"
answers 2 "bootmem61: usage
bootmem61: --report claim: no such report; did you mean claims?" --report claim zp.bin
answers 3 "bootmem61: cannot read $work/none
bootmem61: $work/none: it doesn't exist" --claims "$work/none" "$share/bootmem/examples/first/zp.bin"
answers 5 "bootmem61: zeropage: wrong length" /dev/null
echo sections >"$work/early"
answers 5 "bootmem61: claims: line 1: form" --claims "$work/early" "$share/bootmem/examples/first/zp.bin"
program=bootmem
is "a word with blanks, and the program's standard input" "$("$root/bin/bootmem" --report map "--cmdline=/dev/stdin" \
	"$share/bootmem/examples/first/zp.bin" </dev/null)" "$(cat examples/first/map.txt)"
is "a full output" "$("$root/bin/bootmem" --report map examples/first/zp.bin 2>&1 >/dev/full; echo $?)" "bootmem: cannot write
4"
mkdir -p "$work/bare"
is "without python3" "$(PATH=$work/bare "$root/bin/bootmem" 2>&1)" "bootmem: usage
bootmem: 'bootmem --help' lists the words"
is "bootaudit without names" "$("$root/bin/bootaudit" 2>&1)" "bootaudit: usage
bootaudit: 0 names; three reports are needed: bootaudit [--la57] MAP OWNERS BLOCKS"

for report in map owners blocks; do
	"$root/bin/bootmem" --report "$report" "$share/bootmem/examples/first/zp.bin" >"$work/$report"
done
is "the first audit" "$("$root/bin/bootaudit" "$work/map" "$work/owners" "$work/blocks")" sound

# what the pages point to: documents, machines, commands, places under the prefix, links
documents="$share/doc/bootmem/README.md $share/doc/bootmem/TOOLS.md $share/doc/bootmem/RECIPES.md"
pages="$share/man/man1/bootmem.1 $share/man/man1/bootmem61.1 $share/man/man1/bootaudit.1 $share/man/man5/bootmem.5 $documents"
for page in $pages; do
	name=$(basename "$page")
	sed 's/\\-/-/g' "$page" >"$work/page"
	for document in $(grep -o '[A-Z][A-Z]*\.md' "$work/page" | sort -u); do
		there "$name" "$share/doc/bootmem/$document"
	done
	for machine in $(grep -o 'examples/[a-z0-9][a-zA-Z0-9_./-]*' "$work/page" | sort -u); do
		there "$name" "$share/bootmem/${machine%.}"
	done
	for command in $(grep -o 'bootmem-[a-z][a-z]*\|zp-from-log' "$work/page" | sort -u); do
		case $command in
		bootmem-dev) ok "$name: the package $command" grep -q "package .* $command " tools/deb.sh ;;
		*) there "$name" "$root/bin/$command" ;;
		esac
	done
	for place in $(grep -o 'share/[a-z/]*' "$work/page" | sort -u); do
		case $place in
		# these are installed with the library, which this tree doesn't have yet
		share/bootmem/bindings/*) there "$name" "${place#share/bootmem/}" ;;
		*) there "$name" "$root/$place" ;;
		esac
	done
	for link in $(grep -o '](\([^)#]*\)' "$work/page" | sed 's/^](//' | grep -v '^https*:' | sort -u); do
		there "$name" "$share/doc/bootmem/$link"
	done
done
paths='](docs/\|`docs/\|tools/[a-z]*-\|collect\.sh\|\./boot'
for page in $documents; do
	is "paths of the repository in $(basename "$page")" "$(grep -n "$paths" "$page")" ""
done

# the library, if it was built: a program finds it by pkg-config
if [ -f libbootmem.a ]; then
	cp -r libbootmem.* include bindings "$work/tree" && rm -rf "$work/tree/bindings/rust/target"
	ok "make install with the library" installed /opt/it
	there "the library" "$root/lib/libbootmem.a" "$root/lib/libbootmem.so" "$root/include/bootmem.h" "$share/bootmem/bindings/c/check_table.c" \
		"$share/bootmem/bindings/rust/src/lib.rs"
	if command -v pkg-config >/dev/null 2>&1 && command -v cc >/dev/null 2>&1; then
		flags=$(PKG_CONFIG_SYSROOT_DIR=$work/root PKG_CONFIG_PATH=$root/lib/pkgconfig pkg-config --cflags --libs bootmem)
		# shellcheck disable=SC2086 # a word each
		ok "a program by pkg-config" cc bindings/c/check_table.c $flags -o "$work/check_table"
		ok "it runs" env LD_LIBRARY_PATH="$root/lib" "$work/check_table" examples/first/zp.bin
	fi
	is "the version of bootmem.pc" "$(sed -n 's/^Version: //p' "$root/lib/pkgconfig/bootmem.pc")" "$(sed -n 's/^VERSION := //p' Makefile)"
else
	echo "install.sh: no libbootmem.a: left out the library"
fi

# the tools run from where they are
for tool in "$root"/bin/*; do
	case $(head -n 1 "$tool" | tr -d '\0') in
	'#!'*python3) ! command -v python3 >/dev/null 2>&1 || ok "$(basename "$tool") --help" "$tool" --help ;;
	esac
done
is "bootmem-collect without a folder" "$("$root/bin/bootmem-collect" 2>&1 | grep -c '^usage: ')" 1

# the tools' pages: one each, of the tool's own words, without complaint, and narrow enough after their 7 columns
for tool in "$root"/bin/bootmem-* "$root"/bin/*-from-log "$root/bin/free-lists" "$root/bin/boot-example"; do
	page=$share/man/man1/$(basename "$tool").1
	"$tool" --help >"$work/help" 2>/dev/null || continue
	there "the pages of tools" "$page"
	for option in $(grep -o '^  --[a-z0-9-]*' "$work/help"); do
		ok "$(basename "$page") has $option" grep -q "^.fB$(echo "$option" | sed 's/-/\\\\-/g')[\\ ]" "$page"
	done
	is "$(basename "$page"): wider than 78 columns" "$(awk '/^\.nf/ { on = 1 } /^\.fi/ { on = 0 }
		on { gsub(/\\-/, "-"); gsub(/\\\((aq|ga)/, "x"); if (length > 71) print }' "$page")" ""
	! command -v groff >/dev/null 2>&1 || is "groff of $(basename "$page")" "$(groff -man -ww -z "$page" 2>&1)" ""
done

# one version everywhere
is "the version of the tools" "$(sed -n 's/^VERSION = "\(.*\)"$/\1/p' tools/bootmem_tools/tool.py) $(sed -n 's/^version = "\(.*\)"$/\1/p' \
	tools/pyproject.toml) $(sed -n 's/^version=//p' tools/collect.sh)" \
	"$(sed -n 's/^VERSION := \(.*\)$/\1 \1 \1/p' Makefile)"
version=$(sed -n 's/^VERSION := //p' Makefile)
is "the version of CHANGELOG.md" "$(sed -n 's/^## \([0-9.]*\), [0-9-]*$/\1/p' CHANGELOG.md | head -n 1)" "$version"
is "the date of the newest changes" "$(sed -n "s/^## $version, //p" CHANGELOG.md)" "$(sed -n 's/^\.TH BOOTMEM 1 \([^ ]*\) .*/\1/p' bootmem.1)"
for page in bootmem.1 bootmem61.1 bootaudit.1 bootmem.5; do
	is "the version of $page" "$(sed -n 's/^\.TH .*"bootmem \([0-9.]*\)".*/\1/p' "$page")" "$version"
done
for target in $(sed -n 's/^\.PHONY: all //p' Makefile); do
	ok "make help has $target" sh -c "'$make' --no-print-directory help | grep -q '^ *make $target'"
done

# what uninstall leaves
ok "make uninstall" "$make" --no-print-directory -C "$work/tree" uninstall DESTDIR="$work/root" PREFIX=/opt/it
is "what make uninstall leaves" "$(find "$work/root" ! -type d | head -n 3)" ""

# another place for the pages; sources that are newer; no program at all
ok "make install MANDIR=/pages" installed /opt/it MANDIR=/pages
there "MANDIR" "$work/root/pages/man1/bootmem.1" "$work/root/pages/man5/bootmem.5"
ok "make uninstall MANDIR=/pages" "$make" --no-print-directory -C "$work/tree" uninstall DESTDIR="$work/root" PREFIX=/opt/it MANDIR=/pages
is "what make uninstall leaves with MANDIR" "$(find "$work/root" ! -type d | head -n 3)" ""
touch -d '+1 hour' "$work/tree/crates.txt"
ok "make install with newer sources" installed /opt/it
is "what it says of them" "$(cat "$work/said")" \
	"$(for program in $programs; do
		echo "$program: some sources are newer than ./$program, which is installed as it is; 'make $program' builds it anew"
	done)"
for program in bootaudit bootmem61 bootmem; do
	rm "$work/tree/$program"
	[ "$program" != bootmem61 ] || {
		ok "make install PROGRAMS=bootmem without the others" installed /opt/one PROGRAMS=bootmem
		there "one program" "$work/root/opt/one/bin/bootmem" "$work/root/opt/one/libexec/bootmem/bootmem" "$work/root/opt/one/bin/bootmem-json"
		is "the other programs" "$(find "$work/root/opt/one" -name bootaudit -o -name bootmem61)" ""
	}
	installed /opt/none >"$work/out" 2>"$work/err"
	is "make install without $program" "$([ $? -ne 0 ] && grep -c "there is no ./$program to install" "$work/err")" 1
done
is "what it installs" "$(find "$work/root/opt/none" 2>/dev/null)" ""
installed /opt/none PROVE=1 >"$work/out" 2>"$work/err"
is "make install PROVE=1 without a program or a toolchain" "$([ $? -ne 0 ] && grep -c "there is no command" "$work/err")" 1

counted
