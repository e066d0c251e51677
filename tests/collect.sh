#!/bin/sh
# collect.sh: runs tools/collect.sh over folders that imitate /sys and /proc, and compares what it gathered.
# Prints a line for each difference, and finally 'N passed, M failed'.
. "$(dirname "$0")/counted.sh"

# same WHAT FILE TEXT: the file's bytes, as od prints them, are these
same() {
	is "$1" "$(od -An -v -tx1 "$2" 2>/dev/null | tr -d ' \n')" "$3"
}

# says WHAT TEXT LINE: the text has the line
says() {
	case $2 in
	*"$3"*) right ;;
	*) wrong "$1: no line '$3' in '$2'" ;;
	esac
}

params=$work/sys/kernel/boot_params
mkdir -p "$params/setup_data/0" "$params/setup_data/1" "$params/setup_data/10" "$params/setup_data/2"
printf 'page' >"$params/data"
printf '0x2\n' >"$params/setup_data/0/type"
printf 'dtb' >"$params/setup_data/0/data"
printf '0x1\n' >"$params/setup_data/1/type"
printf 'abc' >"$params/setup_data/1/data"
printf '0x1\n' >"$params/setup_data/10/type"
printf 'z' >"$params/setup_data/10/data"
printf '0x1\n' >"$params/setup_data/2/type"
printf 'de' >"$params/setup_data/2/data"
mkdir -p "$work/sys/firmware/acpi/tables"
printf 'SRAT' >"$work/sys/firmware/acpi/tables/SRAT"
mkdir "$work/proc"
printf 'mem=1G\n' >"$work/proc/cmdline"
# what lies in a frame in part belongs to the image
printf '%s\n' '00100000-3ffdefff : System RAM' '  01000000-022090c7 : Kernel code' '  02400000-02a3ffff : Kernel rodata' \
	'  03b34000-043fe123 : Kernel bss' '240000000-27fffffff : System RAM' >"$work/proc/iomem"
printf 'zones\n' >"$work/proc/zoneinfo"
printf 'blocks\n' >"$work/proc/buddyinfo"

# collect FOLDER: gathers the imitated machine into a folder of $work; its two outputs go to said and err there
collect() {
	"$top/tools/collect.sh" --sys "$work/sys" --proc "$work/proc" "$work/$1" >"$work/said" 2>"$work/err"
}

collect out
is "status" "$?" 0
same "zero page" "$work/out/zp.bin" 70616765
same "extension" "$work/out/e820ext.bin" 000000000000000001000000060000006162636465"7a"
same "command line" "$work/out/cmdline" 6d656d3d31470a
same "SRAT" "$work/out/srat.bin" 53524154
is "release" "$(cat "$work/out/release")" "$(uname -r)"
is "kernel" "$(cat "$work/out/kernel")" "0x1000000,0x33ff000"
for name in iomem zoneinfo buddyinfo; do
	is "$name" "$(cat "$work/out/$name")" "$(cat "$work/proc/$name")"
done
is "the lines that it prints" "$(sed -e "s|$work|WORK|" -e 's/^release: .*/release/' "$work/said")" \
	"zp.bin: zero page, 4 bytes
e820ext.bin: the E820 extension, 22 bytes
cmdline: command line, 7 bytes
srat.bin: SRAT, 4 bytes
iomem: resources, 167 bytes
kernel: the place of its image, 0x1000000,0x33ff000
zoneinfo: zones, 6 bytes
buddyinfo: free blocks, 7 bytes
release
next: cd WORK/out && bootmem --cmdline cmdline --e820ext e820ext.bin --srat srat.bin --kernel 0x1000000,0x33ff000 zp.bin"
is "what is complained of" "$(sed "s|$work|WORK|" "$work/err")" \
	"collect.sh: slit.bin: no SLIT here (WORK/sys/firmware/acpi/tables/SLIT)
collect.sh: cmdline may hold secrets: look at it before you hand the folder on"

# descriptors of runtime services, in the order of their numbers; the greatest doesn't fit a shell's numbers
map=$work/sys/firmware/efi/runtime-map
# descriptor NUMBER TYPE ADDRESS PAGES ATTRIBUTES: as the kernel shows one
descriptor() {
	mkdir -p "$map/$1"
	printf '%s\n' "$2" >"$map/$1/type"
	printf '%s\n' "$3" >"$map/$1/phys_addr"
	printf '%s\n' "$4" >"$map/$1/num_pages"
	printf '%s\n' "$5" >"$map/$1/attribute"
	printf '0xfffffffeffa00000\n' >"$map/$1/virt_addr"
}
descriptor 0 0x5 0x7f5ec000 0x100 0x800000000000000f
descriptor 10 0xb 0xffc00000 0x400 0x8000000000000001
descriptor 2 0x6 0x123456789abcd000 0x1 0x800000000000000f
collect efi
is "status with descriptors" "$?" 0
same "descriptors" "$work/efi/efi.bin" "3000000001000000$(
	)050000000000000000c05e7f00000000000000000000000000010000000000000f000000000000800000000000000000$(
	)060000000000000000d0bc9a78563412000000000000000001000000000000000f000000000000800000000000000000$(
	)0b000000000000000000c0ff000000000000000000000000000400000000000001000000000000800000000000000000"
says "words with descriptors" "$(cat "$work/said")" "--srat srat.bin --efi efi.bin --kernel"
says "the line on EFI descriptors" "$(cat "$work/said")" "efi.bin: the EFI descriptors that this kernel shows, 152 bytes"
says "the line on missing descriptors" "$(cat "$work/err")" "efi.bin: the kernel shows no other descriptors"
rm "$map/10/num_pages"
collect efi
is "status without a descriptor's pages" "$?" 0
says "a descriptor that can't be read" "$(cat "$work/err")" "efi.bin: can't read $map/10; try it as root"
is "no file of descriptors" "$(ls "$work/efi/efi.bin" 2>/dev/null)" ""
rm -r "$map"

# the largest page of the direct map, by the flags of the processor; not without them
is "pages without cpuinfo" "$(ls "$work/out/pages" 2>/dev/null)" ""
for flag in 1G:pdpe1gb 2M:pdpe2gb; do
	printf 'processor\t: 0\nflags\t\t: fpu %s lm\n' "${flag#*:}" >"$work/proc/cpuinfo"
	collect pages
	is "pages with ${flag#*:}" "$(cat "$work/pages/pages")" "${flag%:*}"
	says "the line on pages" "$(cat "$work/said")" "pages: the largest page of the direct map, ${flag%:*}"
done
rm "$work/proc/cpuinfo"

# a folder whose name a shell would split
collect "a b'c"
is "the next command's folder" "$(sed -n "s/^next: \(cd .*\) && .*/\1/p" "$work/said" | tail -n 1)" "cd '$work/a b'\\''c'"

# without root the kernel shows no address
sed 's/[0-9a-f]*-[0-9a-f]* :/00000000-00000000 :/' "$work/proc/iomem" >"$work/hidden" && mv "$work/hidden" "$work/proc/iomem"
rm -r "$params/setup_data" "$work/proc/buddyinfo"
collect plain
is "status without root" "$?" 0
is "without setup_data" "$(ls "$work/plain")" "cmdline
release
srat.bin
zoneinfo
zp.bin"
says "words without an extension" "$(cat "$work/said")" "bootmem --cmdline cmdline --srat srat.bin zp.bin"
is "what is hidden" "$(sed "s|$work|WORK|" "$work/err" | sed -n 2,4p)" \
	"collect.sh: iomem: WORK/proc/iomem hides its addresses; try it as root
collect.sh: kernel: its place isn't known, so 16 MiB to 48 MiB is assumed where --kernel BASE,SIZE doesn't tell it
collect.sh: buddyinfo: no free blocks here (WORK/proc/buddyinfo)"
printf 'mem=2G' >"$work/line"
"$top/tools/collect.sh" --cmdline "$work/line" --sys "$work/sys" --proc "$work/proc" "$work/other" >"$work/said" 2>"$work/err"
same "another command line" "$work/other/cmdline" 6d656d3d3247

: >"$params/data"
collect empty
is "status for an empty zero page" "$?" 1
says "an empty zero page" "$(cat "$work/err")" "zp.bin: $params/data is empty"

rm "$params/data"
collect none
is "status without a zero page" "$?" 1
says "no zero page" "$(cat "$work/err")" "zp.bin: no zero page here"
is "no next command" "$(grep -c '^next' "$work/said")" 0

mkdir "$work/again"
printf 'old' >"$work/again/e820ext.bin"
collect again
is "what an earlier run left" "$(ls "$work/again")" "cmdline
release
srat.bin
zoneinfo"

for words in '' --sys --proc "--sys $work/sys" "--unknown $work/out" "$work/out $work/out"; do
	# shellcheck disable=SC2086 # the words are separated by blanks
	"$top/tools/collect.sh" $words >"$work/said" 2>"$work/err"
	is "status for '$words'" "$? $(wc -l <"$work/said" | tr -d ' ') $(wc -l <"$work/err" | tr -d ' ')" "2 0 1"
done
"$top/tools/collect.sh" --help >"$work/said" 2>"$work/err"
is "status of --help" "$? $(cat "$work/err")" "0 "
says "--help" "$(cat "$work/said")" "usage: collect.sh [--sys DIR] [--proc DIR] [--cmdline FILE] FOLDER"

counted
