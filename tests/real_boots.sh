#!/bin/sh
# real_boots.sh [PROGRAM]: runs the program over every machine of examples/ and compares its reports byte for byte with
# the texts that the kernel's own log confirms: map.txt, memory.txt, nodes.txt, zones.txt, crash.txt, and replay/script.txt, the boot's
# early allocations, whose addresses are all the kernel's own.
# Prints a line for each difference, how many texts of each report agree, how many answers and addresses the replays that
# agree have, which files no report reads, and finally 'N passed, M failed'. A text that is missing is a failure, too.
. "$(dirname "$0")/counted.sh"
program=$(built "${1:-$top/bootmem}") || exit 2
reports="map memory nodes zones crash script"
# the number of texts
all=264
answers=0
addresses=0
texts=

# words REPORT FOLDER: the words that run the report, from within the machine's folder
words() {
	case $1 in
	map)
		[ ! -f "$2/cmdline" ] || printf '%s ' --cmdline cmdline
		[ ! -f "$2/e820ext.bin" ] || printf '%s ' --e820ext e820ext.bin
		# without add_efi_memmap among the words of the kernel the descriptors add nothing
		[ ! -f "$2/efi.bin" ] || printf '%s ' --efi efi.bin
		printf '%s\n' zp.bin
		;;
	*) cat "$2/words" ;;
	esac
}

# differs FOLDER REPORT WHAT: one more that failed
differs() {
	wrong "$1: $2: $3"
}

# check MACHINE FOLDER REPORT: the report of the machine whose files are in that folder
check() {
	# shellcheck disable=SC2046 # the words are separated by blanks
	(cd "$2" && exec "$program" --report "$3" $(words "$3" "$2")) >"$work/got" 2>"$work/err"
	status=$?
	if [ "$status" -ne 0 ]; then
		differs "$1" "$3" "status $status, $(cat "$work/err")"
	elif ! cmp -s "$work/got" "$2/$3.txt"; then
		differs "$1" "$3" "$(diff "$2/$3.txt" "$work/got" | head -n 4 | tr '\n' ' ')"
	elif [ -s "$work/err" ]; then
		differs "$1" "$3" "standard error has $(cat "$work/err")"
	else
		right
		agree=$((agree + 1))
		if [ "$3" = script ]; then
			answers=$((answers + $(wc -l <"$work/got")))
			addresses=$((addresses + $(grep -c ': at 0x' "$work/got")))
		fi
	fi
}

# each REPORT: the folders that have a text of the report, a line for each: the machine, and the folder of its files
each() {
	for text in "$top"/examples/*/"$1".txt "$top"/examples/*/replay/"$1".txt; do
		[ ! -f "$text" ] || echo "$(echo "${text#"$top"/examples/}" | cut -d/ -f1) $(dirname "$text")"
	done
}

for report in $reports; do
	agree=0
	each "$report" >"$work/list"
	while read -r machine folder; do
		check "$machine" "$folder" "$report"
	done <"$work/list"
	texts="$texts${texts:+, }$agree of $report"
done
if [ $((passed + failed)) -ne "$all" ]; then
	differs examples texts "there are $((passed + failed)), and not $all"
fi
unread=$(cd "$top/examples" && find . -mindepth 2 -type f ! -name '*.txt' ! -name words ! -name cmdline \
	! -name zp.bin ! -name e820ext.bin ! -name srat.bin ! -name efi.bin ! -name script | sort | sed 's/^\.\///' | tr '\n' ' ')
echo "no report reads: ${unread:-nothing}"
echo "texts that agree: $texts; the replays have $answers answers, $addresses of them addresses"
counted
