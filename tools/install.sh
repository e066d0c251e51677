#!/bin/sh
# install.sh install|tools|uninstall DESTDIR PREFIX MANDIR: 'install' puts the built programs, the tools, the manual pages, the documents and
# the examples under DESTDIR; 'tools' puts only the tools there; 'uninstall' removes all of it. 'make install' and 'make uninstall' call it.
#
#   PREFIX/bin                bootmem, bootmem61 and bootaudit, which are short scripts that run the programs (tools/command.sh); the
#                             tools; and tools/collect.sh as bootmem-collect
#   PREFIX/libexec/bootmem    the proved programs as they were built, and explain, which the scripts run after a refusal
#   MANDIR/man1, MANDIR/man5  the manual pages; a tool's page is made from its --help, if the tool runs here
#   PREFIX/share/doc/bootmem  the documents, and BUILD: the commit and the kit (the toolchain's version) of programs and library
#   PREFIX/lib/python3*/*-packages/bootmem_tools  the tools' Python package: in such a folder on python3's path, or, if there is none, in
#                             lib/python3/dist-packages, whose path the installed tools add
#   PREFIX/share/bootmem      the machines of examples/, words.txt for the completions, and the help texts of the programs
#   PREFIX/share/bash-completion/completions  a file for bootmem and bootmem61, one for bootaudit, and one for the tools, by each one's name
#   PREFIX/lib, PREFIX/include  if libbootmem.a exists: the library, its header and lib/pkgconfig/bootmem.pc, and in
#                             PREFIX/share/bootmem/bindings the bindings to it; the variable VERSION is the library's version
set -eu
unset CDPATH
cd "$(dirname "$0")/.."
deed=$1
bin=$2$3/bin
libexec=$2$3/libexec/bootmem
lib=$2$3/lib
include=$2$3/include
share=$2$3/share
man=$2$4
all_programs="bootmem bootmem61 bootaudit"
# the programs to install
chosen=${PROGRAMS:-$all_programs}
tools="bootmem-draw bootmem-where bootmem-diff bootmem-live zp-from-log"
tools="$tools bootmem-line bootmem-crash bootmem-linux"
tools="$tools bootmem-fleet bootmem-json claims-from-log free-lists boot-example"

uninstall() {
	for tool in $all_programs bootmem-collect $tools; do
		rm -f "$bin/$tool"
	done
	for tool in $all_programs bootmem-collect $tools; do
		rm -f "$man/man1/$tool.1"
	done
	rm -f "$man/man5/bootmem.5"
	for word in $all_programs bootmem-tools bootmem-collect $tools; do
		rm -f "$share/bash-completion/completions/$word"
	done
	rm -f "$lib"/libbootmem.a "$lib"/libbootmem.so* "$lib/pkgconfig/bootmem.pc" "$include/bootmem.h"
	rm -rf "$libexec" "$share/doc/bootmem" "$share/bootmem" "$lib"/python3*/*-packages/bootmem_tools
}

# packages PREFIX: prints the folder for Python packages under PREFIX/lib, relative to PREFIX
packages() {
	found=$(python3 -I -c 'import sys
folder = sys.argv[1] + "/lib/"
print(next((path for path in sys.path if path.startswith(folder) and path.endswith("-packages")), ""))' "$1" 2>/dev/null) || found=
	[ -n "$found" ] || found=$1/lib/python3/dist-packages
	echo "${found#"$1"/}"
}

# put TOOL PATH PLACE: installs TOOL as PATH; it finds its package at PLACE, relative to its own folder
put() {
	sed "s|^sys.dont_write_bytecode = True\$|&\nsys.path.insert(0, sys.path[0] + \"$3\")|" "$1" >"$2"
	chmod 755 "$2"
}

# built NAME: prints the commit and the kit that a program, or the library, was built with
built() {
	cat "$1.built" 2>/dev/null || echo "commit and kit unknown"
}

# build_file: prints the version, and the commit and the kit of each program and of the library
build_file() {
	echo "bootmem $VERSION"
	for name in $chosen; do
		echo "$name: $(built "$name")"
	done
	[ ! -f libbootmem.a ] || echo "libbootmem: $(built libbootmem)"
}

# programs PREFIX: installs the proved programs unchanged, the scripts that run them, and BUILD
programs() {
	install -d "$libexec"
	for program in $chosen; do
		install -m 755 "$program" "$libexec"
		sed "s|@PROGRAM@|$program|g; s|@PREFIX@|$1|g; s|@VERSION@|$VERSION|; s|@BUILT@|$(built "$program")|" \
			tools/command.sh >"$bin/$program"
		chmod 755 "$bin/$program"
		install -m 644 "tools/$program.help" "$share/bootmem"
	done
	put tools/bootmem-explain "$libexec/explain" "/../../$(packages "$1")"
	build_file >"$share/doc/bootmem/BUILD"
	chmod 644 "$share/doc/bootmem/BUILD"
}

# tools PREFIX: installs the tools and their Python package
tools() {
	packages=$(packages "$1")
	install -d "$bin" "$bin/../$packages/bootmem_tools"
	install -m 755 tools/collect.sh "$bin/bootmem-collect"
	for tool in $tools; do
		put "tools/$tool" "$bin/$tool" "/../$packages"
	done
	install -m 644 tools/bootmem_tools/*.* "$bin/../$packages/bootmem_tools"
}

# library PREFIX: installs the library and what a program needs to call it
library() {
	install -d "$lib/pkgconfig" "$include"
	install -m 644 libbootmem.a "$lib"
	install -m 644 "libbootmem.so.$VERSION" "$lib"
	for name in libbootmem.so.0 libbootmem.so; do
		ln -sf "libbootmem.so.$VERSION" "$lib/$name"
	done
	install -m 644 include/bootmem.h "$include"
	sed "s|@PREFIX@|$1|; s|@VERSION@|$VERSION|" tools/bootmem.pc.in >"$lib/pkgconfig/bootmem.pc"
	chmod 644 "$lib/pkgconfig/bootmem.pc"
	find bindings \( -name target -o -name __pycache__ \) -prune -o -type f -print | while read -r file; do
		install -d "$share/bootmem/$(dirname "$file")"
		install -m 644 "$file" "$share/bootmem/$file"
	done
}

# examples FOLDER: copies the files of the machines of examples/ to FOLDER, without any other files there
examples() {
	(cd examples && find . -type f \( -name '*.bin' -o -name '*.txt' -o -name cmdline -o -name words -o -name script -o -name log -o -name linux \
		-o -name README.md \) -print | tar -c -f - -T -) | (cd "$1" && tar -x --no-same-owner -f -)
	chmod -R u=rwX,go=rX "$1"
}

# document FILE TO PREFIX: installs a document. In a page for users, paths of the repository become those
# of the installation: other documents are in the same folder, programs and tools on the PATH, and the
# examples below PREFIX.
document() {
	words=
	case $1 in
	README.md | examples/README.md | docs/TOOLS.md | docs/RECIPES.md | docs/KERNEL.md | docs/FORMATS.md)
		words='s|](docs/|](|g; s|\[docs/|[|g; s| in `docs/`||; s|`docs/|`|g'
		for tool in $tools; do
			words="$words; s|\(\.\./\)*tools/$tool|$tool|g"
		done
		# a script that is run over ssh needs its full path
		collect=$3/bin/bootmem-collect
		words="$words; s|-q tools/collect\.sh|-q $collect|; s|'tools/collect\.sh|'$collect|"
		words="$words; s|; installed as .bootmem-collect.||"
		words="$words; s|tools/collect\.sh|bootmem-collect|g; s|collect\.sh|bootmem-collect|g"
		words="$words; s|\.\./\(\.\./\)*bootmem|bootmem|g"
		words="$words; s|\./bootmem|bootmem|g; s|\./bootaudit|bootaudit|g"
		words="$words; s|PYTHONPATH=tools|PYTHONPATH=$3/$packages|"
		words="$words; s|\`share/bootmem\`|\`$3/share/bootmem\`|g"
		;;
	esac
	sed "$words" "$1" >"$2"
	chmod 644 "$2"
}

install_all() {
	install -d "$bin" "$man/man1" "$man/man5" "$share/doc/bootmem" "$share/bootmem/examples"
	programs "$1"
	tools "$1"
	completions=$share/bash-completion/completions
	install -d "$completions"
	for program in $chosen; do
		# bootmem and bootmem61 share a file
		install -m 644 "tools/${program%61}.bash-completion" "$completions/$program"
	done
	install -m 644 tools/bootmem-tools.bash-completion "$completions/bootmem-tools"
	for tool in bootmem-collect $tools; do
		ln -sf bootmem-tools "$completions/$tool"
	done
	# the completions read this file
	install -m 644 tools/bootmem_tools/words.txt "$share/bootmem/words.txt"
	for program in $all_programs; do
		install -m 644 "$program.1" "$man/man1"
	done
	install -m 644 bootmem.5 "$man/man5/bootmem.5"
	for tool in bootmem-collect $tools; do
		if "$bin/$tool" --help >/dev/null 2>&1; then
			tools/manual.sh "$bin/$tool" >"$man/man1/$tool.1"
			chmod 644 "$man/man1/$tool.1"
		fi
	done
	for document in README.md CHANGELOG.md CONTRIBUTING.md docs/*.md; do
		document "$document" "$share/doc/bootmem/$(basename "$document")" "$1"
	done
	install -m 644 docs/*.svg docs/*.json "$share/doc/bootmem"
	examples "$share/bootmem/examples"
	document examples/README.md "$share/bootmem/examples/README.md" "$1"
	[ ! -f libbootmem.a ] || library "$1"
}

case $deed in
install) install_all "$3" ;;
tools) tools "$3" ;;
uninstall) uninstall ;;
*)
	echo "usage: install.sh install|tools|uninstall DESTDIR PREFIX MANDIR" >&2
	exit 2
	;;
esac
