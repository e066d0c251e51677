#!/bin/sh
# shown.sh [PROGRAM [FILE..]]: runs the commands that the documents show, and compares what they print with what is shown, byte
# for byte. bootmem61 and bootaudit lie beside PROGRAM. The documents are README.md, the manual pages and some of docs/ and examples/, or the files that are named.
#
# A command follows '$ ' in an indented block of a .md file, or between .nf and .fi of a manual page; what follows
# it, up to the next one, is its output and its standard error as they come. A here-document belongs to its command, and so
# does the line after one that ends with a backslash or a bar. Each block begins at the top of a copy of the repository's examples and
# tools, with the programs as ./bootmem, ./bootmem61 and ./bootaudit and on the PATH; files that an earlier block of the same document made are still there.
# A block whose first line has no '$ ' shows no command and isn't run: `plain` names each that may be so, another one fails.
#
# What a command needs of the machine is stood in for by `stand_in`, and none of it is read from the machine that runs the test.
# An example of a manual page has room within 78 columns, after the 11 by which a page shifts it.
# The test's own folders are shown as a user would see them: the copy as /home/me/bootmem, the stand-ins without their front.
# Prints a line for each difference, and finally 'N passed, M failed; K blocks show no command'.
. "$(dirname "$0")/counted.sh"
program=$(built "${1:-$top/bootmem}") || exit 2
[ $# -eq 0 ] || shift
program61=$(built "$(dirname "$program")/bootmem61") || exit 2
audit=$(built "$(dirname "$program")/bootaudit") || exit 2
[ $# -gt 0 ] || set -- "$top/README.md" "$top/docs/RECIPES.md" "$top/bootmem.1" "$top/bootmem61.1" "$top/bootaudit.1" "$top/bootmem.5" "$top/docs/TOOLS.md" "$top/examples/README.md"
machine=$work/machine
without=0
# a make that runs the test isn't the one that a command calls
unset MAKEFLAGS MFLAGS MAKELEVEL
# nor is its terminal as wide as a document
unset COLUMNS

# script FILE LINE..: the lines as a script that can be run
script() {
	file=$1
	shift
	printf '%s\n' '#!/bin/sh' "$@" >"$file" && chmod 755 "$file"
}

# shows EXAMPLE FOLDER: writes into the folder what the kernel of the example shows of its memory: resources, zones and free blocks. The
# zones are those in its log; the free blocks are the program's.
shows() {
	{
		sed -n 's/^0x0*\([0-9a-f]*\)\.\.0x0*\([0-9a-f]*\) 1 .*/\1-\2 : System RAM/p' "$1/map.txt"
		printf '  %s\n' '1000000-22090c7 : Kernel code' '3b34000-43fffff : Kernel bss'
		sed -n 's/^crash [a-z]* 0x0*\([0-9a-f]*\)\.\.0x0*\([0-9a-f]*\)$/  \1-\2 : Crash kernel/p' "$1/crash.txt"
	} >"$2/iomem"
	while read -r node zone start spanned present; do
		printf 'Node %s, zone %8s\n        spanned  %s\n        present  %s\n  start_pfn:           %s\n' \
			"$node" "$zone" "$spanned" "$present" "$start"
	done >"$2/zoneinfo" <<-'END'
		0 DMA 1 4095 3998
		0 DMA32 4096 1044480 520159
		0 Normal 1048576 524288 524288
		1 Normal 1572864 1048576 1048576
	END
	# shellcheck disable=SC2046 # the words are separated by blanks
	(cd "$1" && "$program" $(cat words)) >"$2/buddyinfo"
}

# stand_in COPY: a machine, that of examples/q35-8g-numa2, for the commands that look at the one they run on. The tool that
# gathers reads /sys and /proc of it, under both of its names; dmesg and uname -r answer for it; and an image of its
# memory, with the place of the zero page in a System.map, lies in the copy.
stand_in() {
	given=$top/examples/q35-8g-numa2
	mkdir -p "$machine/sys/kernel/boot_params" "$machine/sys/firmware/acpi/tables" "$machine/proc" "$machine/bin" "$machine/tools" &&
		cp "$given/zp.bin" "$machine/sys/kernel/boot_params/data" &&
		cp "$given/srat.bin" "$machine/sys/firmware/acpi/tables/SRAT" &&
		cp "$given/cmdline" "$machine/proc/cmdline" && shows "$given" "$machine/proc" || return 1
	for tool in "$1/tools/collect.sh" "$machine/bin/bootmem-collect"; do
		real=$machine/tools/$(basename "$tool")
		cp "$top/tools/collect.sh" "$real" &&
			script "$tool" "exec '$real' --sys '$machine/sys' --proc '$machine/proc' \"\$@\"" || return 1
	done
	# the kernel's lines for the map and the initrd, whose address and size are the u32 at 0x218 and 0x21C
	sed 's/^\(0x[0-9a-f]*\)\.\.\(0x[0-9a-f]*\) [0-9]* \(.*\)/BIOS-e820: [mem \1-\2] \3/' "$given/map.txt" >"$machine/log" &&
		od -An -tu4 -j 536 -N 8 "$given/zp.bin" | {
			read -r address size && printf 'RAMDISK: [mem 0x%x-0x%x]\n' "$address" $((address + size - 1))
		} >>"$machine/log" &&
		script "$machine/bin/dmesg" "cat '$machine/log'" &&
		script "$machine/bin/uname" "if [ \"\$*\" = -r ]; then echo 6.1.192; else command -p uname \"\$@\"; fi" || return 1
	echo 'ffffffff82c47020 B boot_params' >"$1/System.map" &&
		dd if="$given/zp.bin" of="$1/memory" bs=32 seek=$((0x2c47020 / 32)) 2>"$machine/dd"
}

# plain LINE: a block that begins with this line shows no command: the words of the program, or what a tool printed on a
# machine that isn't here
plain() {
	case $1 in
	'bootmem [--la57] '* | 'bootmem61 [--claims '* | 'bootaudit [--la57] '*) ;;
	'bootmem --cmdline cmdline --kernel 0x1000000,0x2c58000 zp.bin') ;;
	# the bodies of two tests, which library.sh runs
	'let page = zero_page('* | 'page = inputs.zero_page('*) ;;
	*) return 1 ;;
	esac
}

# blocks FILE: the lines of its blocks as a reader sees them, each block after a line of one byte 1
blocks() {
	case $1 in
	*.md) awk '/^    / { if (!on) print "\001"; on = 1; print substr($0, 5); next } { on = 0 }' "$1" ;;
	*) awk '/^\.nf/ { print "\001"; on = 1; next } /^\.fi/ { on = 0 }
		on { gsub(/\\-/, "-"); gsub(/\\\(aq/, "\047"); gsub(/\\&/, ""); gsub(/\\e/, "\\"); print }' "$1" ;;
	esac
}

# split FOLDER: of the blocks on standard input, one script each, N.sh, and what its commands print, N-C.want; the command
# itself, for the messages about it, is N-C.command. The first lines of blocks without a command are in `plain`.
split() {
	awk -v folder="$1" '
		function begin() { command++; want = folder "/" block "-" command ".want"; printf "" >want
			print "{" >script; print substr($0, 3) >script; print substr($0, 3) >(folder "/" block "-" command ".command")
			behind = ""; if (match($0, /<<\047?[A-Z]+/)) { behind = substr($0, RSTART + 2, RLENGTH - 2); sub(/\047/, "", behind) }
			more = $0 ~ /[\\|]$/; if (behind == "" && !more) end() }
		function end() { print "} >\"$shown/" block "-" command ".got\" 2>&1 </dev/null" >script; behind = ""; more = 0 }
		$0 == "\001" { first = 1; on = 0; next }
		first { first = 0; on = /^\$ /; if (on) { block++; command = 0; script = folder "/" block ".sh" } else print >(folder "/plain") }
		!on { next }
		behind != "" { print >script; if ($0 == behind) end(); next }
		more { print >script; if ($0 !~ /[\\|]$/) end(); next }
		/^\$ / { begin(); next }
		{ print >want }'
}

# run_block FOLDER COPY BLOCK: runs the block's script, and shows what it printed as a user would see it
run_block() {
	(cd "$2" && PATH="$machine/bin:$2:$2/tools:$PATH" LC_ALL=C exec sh "$1/$3.sh") >"$1/said" 2>&1
	[ ! -s "$1/said" ] || echo "$name: block $3: $(cat "$1/said")"
	for got in "$1/$3"-*.got; do
		sed -e "s|$machine/|/|g" -e "s|$2|/home/me/bootmem|g" "$got" >"$1/seen" && mv "$1/seen" "$got"
	done
}

# compare FOLDER BLOCK: what each command of the block printed, and what is shown
compare() {
	command=1
	while [ -f "$1/$2-$command.want" ]; do
		if cmp -s "$1/$2-$command.want" "$1/$2-$command.got"; then
			right
		else
			wrong "$name: $(cat "$1/$2-$command.command"):"
			diff "$1/$2-$command.want" "$1/$2-$command.got" | head -n 10
		fi
		command=$((command + 1))
	done
}

number=0
for document; do
	number=$((number + 1))
	name=${document#"$top/"}
	shown=$work/shown-$number
	copy=$work/copy-$number
	export shown
	mkdir "$shown" "$copy" || exit 1
	# without crates none is newer than the program, so 'make run' runs it as it is
	mkdir "$copy/crates" && cp -r "$top/examples" "$top/tools" "$top/Makefile" "$top/crates.txt" "$copy" &&
		cp "$program" "$copy/bootmem" && cp "$program61" "$copy/bootmem61" && cp "$audit" "$copy/bootaudit" && stand_in "$copy" || exit 1
	: >"$shown/plain"
	blocks "$document" | split "$shown"
	block=1
	while [ -f "$shown/$block.sh" ]; do
		run_block "$shown" "$copy" "$block"
		compare "$shown" "$block"
		block=$((block + 1))
	done
	case $document in
	*.[0-9])
		blocks "$document" | awk 'length > 78 - 11' >"$shown/wide"
		while IFS= read -r line; do
			wrong "$name: wider than 78 columns: $line"
		done <"$shown/wide"
		;;
	esac
	while IFS= read -r line; do
		if plain "$line"; then
			without=$((without + 1))
		else
			wrong "$name: a block without '\$ ' isn't run: $line"
		fi
	done <"$shown/plain"
done
counted "; $without blocks show no command"
