#!/bin/sh
# audits.sh [PROGRAM [AUDIT]]: the reports map, owners and blocks that PROGRAM makes of every machine of examples/ audit as sound, with
# status 0 and nothing on standard error. Then what AUDIT says if a line of one of them is gone, if a file, the words or
# the output are at fault, and of three empty files. Prints a line for each difference, and finally 'N passed, M failed'.
. "$(dirname "$0")/counted.sh"
program=$(built "${1:-$top/bootmem}") || exit 2
audit=$(built "${2:-$top/bootaudit}") || exit 2

# says WHAT STATUS TEXT LINE WORD..: the audit on these words: its status, its output, and its standard error
says() {
	what=$1
	wanted=$(printf '%s|%s|%s' "$2" "$3" "$4")
	shift 4
	(cd "$work" && exec "$audit" "$@") >"$work/out" 2>"$work/err"
	is "$what" "$(printf '%s|%s|%s' "$?" "$(cat "$work/out")" "$(cat "$work/err")")" "$wanted"
}

# reports FOLDER: the three reports of the machine in the folder, as the files of their names; the words are the machine's
# own, or its zero page alone
reports() {
	for report in map owners blocks; do
		# shellcheck disable=SC2046 # the words are separated by blanks
		(cd "$1" && exec "$program" --report $report $(cat words 2>/dev/null || echo zp.bin)) >"$work/$report" || return 1
	done
}

machines=0
for folder in "$top"/examples/*/; do
	[ -f "$folder/zp.bin" ] || continue
	# a machine whose boot stops, or whose line is refused, has no reports
	reports "$folder" 2>"$work/stopped" || continue
	machines=$((machines + 1))
	says "$(basename "$folder")" 0 sound '' map owners blocks
done

reports "$top/examples/first" || exit 1
last=$(sed -n '$s/.* //p' "$work/blocks")
sed '$d' "$work/blocks" >"$work/fewer"
sed 's/^node 0/node 00/' "$work/blocks" >"$work/zeros"
: >"$work/empty"
says "a block is gone" 8 "not sound: frame $last lost" '' map owners fewer
says "leading zeros" 5 '' 'bootaudit: blocks: line 1: form' map owners zeros
says "owners as a map" 5 '' 'bootaudit: map: line 1: form' owners owners blocks
says "nothing at all" 0 sound '' --la57 empty empty empty
says "a missing file" 3 '' 'bootaudit: cannot read missing' map missing blocks
says "a folder" 3 '' 'bootaudit: cannot read .' map owners .
says "two names" 2 '' 'bootaudit: usage' map owners
says "an option after the names" 2 '' 'bootaudit: usage' map owners blocks --la57
says "what isn't UTF-8" 2 '' '' map owners "$(printf '\377')"
truncate -s 536870913 "$work/long" && says "a file of 512 MiB and a byte" 5 '' 'bootaudit: map: too long' long owners blocks
(cd "$work" && exec "$audit" map owners blocks) >/dev/full 2>"$work/err"
is "a full device" "$? $(cat "$work/err")" "4 bootaudit: cannot write"

counted "; $machines machines" && [ "$machines" -gt 30 ]
