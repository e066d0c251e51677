#!/bin/sh
# try.sh CRATE WORD..: builds the crate's program without proving it, and runs it with these words.
# Standard output and standard error are the program's, after a line that says that the build is unproved. While it builds, standard error shows
# the seconds so far: on a terminal in one line that is rewritten, otherwise in a line every 15 seconds. If a word names a file, the program gets a
# copy with a plain name, so an error may name that copy.
set -eu
unset CDPATH
rt=${RT:-rt}
top=$(cd "$(dirname "$0")/.." && pwd)

# show_time PID: shows the seconds so far until the process ends
show_time() {
	seconds=0
	while kill -0 "$1" 2>/dev/null; do
		sleep 1
		seconds=$((seconds + 1))
		if [ -t 2 ]; then
			printf '\r%s: building without proof, %s s (about a minute)' "$name_of_program" "$seconds" >&2
		elif [ $((seconds % 15)) = 0 ]; then
			echo "$name_of_program: building without proof, $seconds s so far" >&2
		fi
	done
	[ ! -t 2 ] || printf '\r\033[K' >&2
}

"$top/tools/toolchain.sh"
crate=$1
shift
case $crate in
*_cli) name_of_program=${crate%_cli} ;;
*) name_of_program=$crate ;;
esac
echo "$name_of_program: an unproved build; 'make $name_of_program' gives the proved program" >&2
copies=$(mktemp -d)
trap 'rm -rf "$copies"' EXIT
given=$#
count=0
before=
while [ "$given" -gt 0 ]; do
	word=$1
	shift
	given=$((given - 1))
	# the word after --report names reports, even if a file has that name
	if [ "$before" != --report ] && [ -f "$word" ]; then
		count=$((count + 1))
		name=file$count-$(basename "$word" | tr -c 'A-Za-z0-9._\n' _)
		cp "$word" "$copies/$name"
		set -- "$@" "$name"
	else
		set -- "$@" "$word"
	fi
	before=$word
done
set -- -- "$@"
for copy in "$copies"/*; do
	[ ! -f "$copy" ] || set -- --data "$(basename "$copy")=$copy" "$@"
done
cd "$top/crates/$crate"
"$rt" try "$@" >"$copies/out" 2>"$copies/said" &
building=$!
trap 'kill "$building" 2>/dev/null || :; rm -rf "$copies"' EXIT
show_time "$building"
status=0
wait "$building" || status=$?
cat "$copies/out"
# leaves out the toolchain's lines about its own run
grep -v -e '^checked: ' -e '^run=' "$copies/said" >&2 || :
exit "$status"
