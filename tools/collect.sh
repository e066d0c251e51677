#!/bin/sh
# collect.sh: collects the inputs that this machine's kernel got at boot; --help has the details.
set -u
unset CDPATH
me=${0##*/}
version=0.1.0
sys=/sys
proc=/proc
cmdline=

help() {
	cat <<END
usage: $me [--sys DIR] [--proc DIR] [--cmdline FILE] FOLDER

Gathers what this machine's kernel was given at boot into FOLDER, in the files
that bootmem reads:

  zp.bin       the zero page, /sys/kernel/boot_params/data
  e820ext.bin  the E820 extension, made from /sys/kernel/boot_params/setup_data
               if there is one
  cmdline      the command line, /proc/cmdline
  srat.bin     the ACPI table SRAT, /sys/firmware/acpi/tables/SRAT (root alone)
  efi.bin      EFI's memory map, made from /sys/firmware/efi/runtime-map if
               there is one (root alone): its descriptors of runtime services,
               and those of boot services if the kernel was booted with
               efi=debug, since it shows no others
  kernel       the place of the kernel's image as --kernel takes it: Kernel code
               to Kernel bss of /proc/iomem, in whole frames (root alone)

and also, for bootmem-live and for those who read them later,

  slit.bin     the ACPI table SLIT, /sys/firmware/acpi/tables/SLIT (root alone)
  pages        the largest page of the kernel's direct map, 1G or 2M, by the
               flags in /proc/cpuinfo
  iomem, zoneinfo, buddyinfo
               what the kernel shows under these names in /proc; iomem only if
               it shows its addresses (root alone)
  release      the kernel's release, of uname -r

Files of these names that FOLDER has already are removed first. It reads and
writes nothing else and needs no root for zero page and command line. What it
gathered, and the command to run next, go to standard output; what it couldn't
read to standard error. A command line may hold secrets: look at it before you
hand the folder on.

  --sys DIR       a folder in place of /sys
  --proc DIR      a folder in place of /proc
  --cmdline FILE  a file in place of /proc/cmdline
  --version       print the version and exit

example:
  $me here && bootmem-live here

exit status: 0; 1 if zero page, extension or command line couldn't be read, or
FOLDER couldn't be written; 2 for words that aren't those above.

This tool isn't proved: it only copies what the proved program reads.
END
}

usage() {
	echo "usage: $me [--sys DIR] [--proc DIR] [--cmdline FILE] FOLDER" >&2
	exit 2
}

complain() {
	echo "$me: $1" >&2
}

while [ $# -gt 0 ]; do
	case $1 in
	--help | -h)
		help
		exit 0
		;;
	--version)
		echo "$me $version"
		exit 0
		;;
	--sys | --proc | --cmdline)
		[ $# -gt 1 ] || usage
		case $1 in
		--sys) sys=$2 ;;
		--proc) proc=$2 ;;
		*) cmdline=$2 ;;
		esac
		shift 2
		;;
	*) break ;;
	esac
done
[ $# -eq 1 ] || usage
case $1 in
-* | '') usage ;;
esac
folder=$1
cmdline=${cmdline:-$proc/cmdline}
mkdir -p "$folder" || exit 1
folder=$(cd "$folder" && pwd) || exit 1
# files that an earlier run left would be taken for this machine's
for name in zp.bin e820ext.bin cmdline srat.bin efi.bin slit.bin release kernel pages iomem zoneinfo buddyinfo; do
	rm -f "$folder/$name" || exit 1
done

# limit in bytes: no file that a kernel shows is longer, but a path may name a file that never ends
most=67108864

# first FILE: prints its first bytes, up to one more than the limit
first() {
	head -c $((most + 1)) "$1"
}

# size NAME: prints the number of bytes of a file in the folder
size() {
	wc -c <"$folder/$1" | tr -d ' '
}

# take FILE NAME WHAT: copies the file, or complains and fails
take() {
	if [ ! -e "$1" ]; then
		complain "$2: no $3 here ($1)"
		return 1
	elif first "$1" >"$folder/$2" 2>/dev/null; then
		if [ "$(size "$2")" -gt $most ]; then
			rm -f "$folder/$2"
			complain "$2: $1 is longer than $most bytes"
			return 1
		fi
		echo "$2: $3, $(size "$2") bytes"
	else
		rm -f "$folder/$2"
		complain "$2: can't read $1; try it as root"
		return 1
	fi
}

# number N: prints N as a little-endian u32
number() {
	left=$1
	for _ in 1 2 3 4; do
		# shellcheck disable=SC2059 # the format is the escape itself
		printf "\\$(printf '%03o' $((left % 256)))"
		left=$((left / 256))
	done
}

# little HEX: prints the number 0xHEX as a little-endian u64; it works on digits, since a shell's numbers end at 2^63
little() {
	digits=$(printf '%s' "0000000000000000${1#0x}" | sed 's/.*\(.\{16\}\)$/\1/')
	while [ -n "$digits" ]; do
		front=${digits%??}
		# shellcheck disable=SC2059 # the format is the escape itself
		printf "\\$(printf '%03o' "0x${digits#"$front"}")"
		digits=$front
	done
}

# word FILE: prints the first line of a file with one number
word() {
	head -c 64 "$1" 2>/dev/null | tr -d '\0' | head -n 1 | grep .
}

# Writes efi.bin with the descriptors that the kernel shows, of 48 bytes each. Their virtual addresses are 0.
descriptors() {
	shown=$sys/firmware/efi/runtime-map
	[ -d "$shown" ] || return 0
	data=$(mktemp) || return 1
	{
		number 48
		number 1
	} >"$data"
	for node in $(cd "$shown" && printf '%s\n' * | sort -n); do
		if ! kind=$(word "$shown/$node/type") || ! address=$(word "$shown/$node/phys_addr") ||
			! pages=$(word "$shown/$node/num_pages") || ! attributes=$(word "$shown/$node/attribute"); then
			complain "efi.bin: can't read $shown/$node; try it as root"
			rm -f "$data"
			return 1
		fi
		for value in "$kind" "$address" 0 "$pages" "$attributes" 0; do
			little "$value"
		done >>"$data"
	done
	cat "$data" >"$folder/efi.bin"
	rm -f "$data"
	echo "efi.bin: the EFI descriptors that this kernel shows, $(size efi.bin) bytes"
	complain "efi.bin: the kernel shows no other descriptors; the log of a boot with efi=debug has all of them (zp-from-log --efi)"
}

# Writes e820ext.bin: one header (next 0, type 1, length), and after it the data of all nodes of type 1 (SETUP_E820_EXT), in their order.
extension() {
	data=$(mktemp) || return 1
	nodes=0
	# nodes are numbered from 0 in the order of the list
	for node in $(cd "$sys/kernel/boot_params/setup_data" 2>/dev/null && printf '%s\n' * | sort -n); do
		node=$sys/kernel/boot_params/setup_data/$node
		[ "$(word "$node/type")" = 0x1 ] || continue
		if first "$node/data" >>"$data" 2>/dev/null; then
			nodes=$((nodes + 1))
		else
			complain "e820ext.bin: can't read $node/data; try it as root"
			rm -f "$data"
			return 1
		fi
	done
	if [ "$nodes" -gt 0 ]; then
		{
			number 0
			number 0
			number 1
			number "$(wc -c <"$data" | tr -d ' ')"
			cat "$data"
		} >"$folder/e820ext.bin"
		echo "e820ext.bin: the E820 extension, $(size e820ext.bin) bytes"
	fi
	rm -f "$data"
}

# Writes the place of the kernel's image from iomem, whose lines ascend. It fails without root, since all addresses are 0 then.
place() {
	first=$(sed -n 's/^ *\([0-9a-f]*\)-[0-9a-f]* : Kernel code$/\1/p' "$folder/iomem" | head -n 1)
	last=$(sed -n 's/^ *[0-9a-f]*-\([0-9a-f]*\) : Kernel [a-z]*$/\1/p' "$folder/iomem" | tail -n 1)
	[ "$((0x${first:-0}))" -gt 0 ] || return 1
	base=$((0x$first / 4096 * 4096))
	printf '0x%x,0x%x\n' "$base" $(((0x$last / 4096 + 1) * 4096 - base)) >"$folder/kernel"
	echo "kernel: the place of its image, $(cat "$folder/kernel")"
}

# Copies what the kernel shows in /proc: resources, unless their addresses are hidden, zones and free blocks.
shows() {
	if [ -e "$proc/iomem" ] && ! first "$proc/iomem" 2>/dev/null | grep -aq '^ *[0-9a-f-]*[1-9a-f][0-9a-f-]* : '; then
		complain "iomem: $proc/iomem hides its addresses; try it as root"
	else
		take "$proc/iomem" iomem "resources"
	fi
	if [ ! -f "$folder/iomem" ] || ! place; then
		complain "kernel: its place isn't known, so 16 MiB to 48 MiB is assumed where --kernel BASE,SIZE doesn't tell it"
	fi
	if [ -r "$proc/cpuinfo" ]; then
		pages=2M
		first "$proc/cpuinfo" | grep -q '^flags.* pdpe1gb' && pages=1G
		echo "$pages" >"$folder/pages"
		echo "pages: the largest page of the direct map, $pages"
	fi
	take "$proc/zoneinfo" zoneinfo "zones"
	take "$proc/buddyinfo" buddyinfo "free blocks"
}

# quoted WORD: prints the word, quoted for a shell if that is needed
quoted() {
	case $1 in
	*[!A-Za-z0-9_./+:@%-]*) printf "'%s'" "$(printf '%s' "$1" | sed "s/'/'\\\\''/g")" ;;
	*) printf '%s' "$1" ;;
	esac
}

# Prints the command that runs the program on the collected files.
next() {
	printf '%s' "next: cd $(quoted "$folder") && bootmem"
	[ ! -f "$folder/cmdline" ] || printf ' --cmdline cmdline'
	[ ! -f "$folder/e820ext.bin" ] || printf ' --e820ext e820ext.bin'
	[ ! -f "$folder/srat.bin" ] || printf ' --srat srat.bin'
	[ ! -f "$folder/efi.bin" ] || printf ' --efi efi.bin'
	[ ! -f "$folder/kernel" ] || printf ' --kernel %s' "$(cat "$folder/kernel")"
	printf ' zp.bin\n'
}

failed=0
take "$sys/kernel/boot_params/data" zp.bin "zero page" || failed=1
if [ -e "$folder/zp.bin" ] && [ ! -s "$folder/zp.bin" ]; then
	complain "zp.bin: $sys/kernel/boot_params/data is empty"
	failed=1
fi
extension || failed=1
take "$cmdline" cmdline "command line" || failed=1
take "$sys/firmware/acpi/tables/SRAT" srat.bin "SRAT"
descriptors
take "$sys/firmware/acpi/tables/SLIT" slit.bin "SLIT"
shows
if uname -r >"$folder/release"; then
	echo "release: $(cat "$folder/release")"
fi
[ ! -s "$folder/zp.bin" ] || next
[ ! -s "$folder/cmdline" ] || complain "cmdline may hold secrets: look at it before you hand the folder on"
exit $failed
