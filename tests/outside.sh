#!/bin/sh
# outside.sh [PROGRAM]: checks how the program fails if its surroundings do: files that can't be read, an output
# that is full or whose reader ends. Prints a line for each difference, and finally 'N passed, M failed'.
. "$(dirname "$0")/counted.sh"
program=$(built "${1:-$top/bootmem}") || exit 2

# expect STATUS LINE OUTPUT WORD..: checks the program's status, its line on standard error, byte for byte, and
# its output, which is the example's map if the status is 0, and otherwise empty
expect() {
	wanted=$1
	line=$2
	output=$3
	shift 3
	if [ "$wanted" -eq 0 ]; then cat "$map"; fi >"$work/report"
	printf '%s' "${line:+$line
}" >"$work/line"
	"$program" "$@" >"$output" 2>"$work/err"
	status=$?
	if [ "$status" = "$wanted" ] && cmp -s "$work/err" "$work/line" &&
		{ [ ! -f "$output" ] || cmp -s "$output" "$work/report"; }; then
		right
	else
		wrong "$*: status $status, wanted $wanted: $(cat "$work/err")"
	fi
}

zp=$top/examples/first/zp.bin
map=$top/examples/first/map.txt
cd "$work" || exit 1
mkdir folder
head -c 4095 "$zp" >short
cat "$zp" "$zp" >long
printf 'mem=0\n' >options
expect 0 '' "$work/out" --report map "$zp"
expect 2 'bootmem: usage' "$work/out"
expect 2 'bootmem: usage' "$work/out" --report map "$zp" "$zp"
expect 3 'bootmem: cannot read missing' "$work/out" --report map missing
expect 3 'bootmem: cannot read folder' "$work/out" --report map folder
expect 3 'bootmem: cannot read missing' "$work/out" --report map --cmdline missing "$zp"
expect 5 'bootmem: zeropage: wrong length' "$work/out" --report map --cmdline missing short
expect 5 'bootmem: zeropage: too long' "$work/out" --report map long
expect 5 'bootmem: cmdline: word 1: mem' "$work/out" --report map --cmdline options "$zp"
expect 5 'bootmem: srat: short' "$work/out" --report map --srat options "$zp"
expect 5 'bootmem: script: line 1: form' "$work/out" --report map --script options "$zp"
expect 2 '' "$work/out" --report map "$(printf '\377')"
if [ -c /dev/full ]; then
	expect 4 'bootmem: cannot write' /dev/full --report map "$zp"
	"$program" --report map missing 2>/dev/full
	is "a full standard error" "$?" 3
	"$program" 2>/dev/full
	is "no word, and a full standard error" "$?" 2
fi

# five files and two reports: each file in turn can't be read, and one that is malformed goes before a later one that can't
printf '\0\0\0\0\0\0\0\0\1\0\0\0\0\0\0\0' >ext
{ printf 'SRAT\060\0\0\0\1\225' && head -c 38 /dev/zero; } >srat
: >empty
head -c 15 ext >header
# five STATUS LINE EXTENSION CMDLINE SRAT SCRIPT ZEROPAGE: what the program does with files of these names
five() {
	expect "$1" "$2" "$work/out" --e820ext "$3" --cmdline "$4" --srat "$5" --script "$6" --report map,buddyinfo "$7"
}
five 3 'bootmem: cannot read missing' ext empty srat empty missing
five 3 'bootmem: cannot read missing' missing empty srat empty "$zp"
five 3 'bootmem: cannot read missing' ext missing srat empty "$zp"
five 3 'bootmem: cannot read missing' ext empty missing empty "$zp"
five 3 'bootmem: cannot read missing' ext empty srat missing "$zp"
five 5 'bootmem: zeropage: wrong length' missing missing missing missing short
five 5 'bootmem: e820ext: header' header missing missing missing "$zp"
five 5 'bootmem: cmdline: word 1: mem' ext options missing missing "$zp"
five 5 'bootmem: srat: short' ext empty options missing "$zp"

# a full output: exactly the bytes that there is room for go out. The room is what is left of a file below the size that a file may have
(trap '' XFSZ && ulimit -f 1024 && exec head -c 4194304 /dev/zero >output 2>"$work/err")
most=$(($(wc -c <output)))
# room STATUS BYTES LIST WORD..: the program's status if there is room for BYTES bytes of the reports, which are in whole
room() {
	wanted=$1
	room=$2
	shift 2
	if [ "$wanted" -ne 0 ]; then echo 'bootmem: cannot write'; fi >"$work/line"
	head -c "$((most - room))" /dev/zero >output
	(trap '' XFSZ && ulimit -f 1024 && exec "$program" --report "$@" >>output 2>"$work/err")
	status=$?
	tail -c "+$((most - room + 1))" output >part
	head -c "$room" whole >front
	if [ "$status" = "$wanted" ] && cmp -s "$work/err" "$work/line" && cmp -s part front; then
		right
	else
		wrong "room for $room bytes: status $status, wanted $wanted, $(($(wc -c <part))) bytes: $(cat "$work/err")"
	fi
}

# before LINE: how many bytes of whole are before the first line that ends with LINE
before() {
	echo "$(($(sed "/$1\$/,\$d" whole | wc -c)))"
}

# three reports, each a put of its own: one of them fails at its first byte, amid its text or at its last byte
set -- --e820ext ext --cmdline empty --srat srat --script empty "$zp"
"$program" --report map,buddyinfo,blocks "$@" >whole
second=$(before '== buddyinfo')
third=$(before '== blocks')
end=$(($(wc -c <whole)))
for bytes in 0 1 "$((second - 1))" "$second" "$((second + 1))" "$((third - 1))" "$third" "$((third + 1))" "$((end - 1))"; do
	room 4 "$bytes" map,buddyinfo,blocks "$@"
done
room 0 "$end" map,buddyinfo,blocks "$@"

# the blocks of 20 GiB are written in one piece; the lines up to 8 GiB find room
great=$top/examples/q35-20g-numa4/zp.bin
"$program" --report map,blocks "$great" >whole
upto=$(before ' 0x0000000200000000')
room 4 "$upto" map,blocks "$great"
room 4 "$((upto + 1))" map,blocks "$great"
room 0 "$(($(wc -c <whole)))" map,blocks "$great"

# a reader that leaves before the whole text is in the pipe
{
	"$program" --report map,blocks "$great" 2>"$work/err"
	echo $? >status
} | head -c 100 >part
head -c 100 whole >front
if [ "$(cat status)" = 4 ] && cmp -s part front && [ "$(cat "$work/err")" = 'bootmem: cannot write' ]; then
	right
else
	wrong "a reader that leaves: status $(cat status), wanted 4: $(cat "$work/err")"
fi
counted
