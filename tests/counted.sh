# counted.sh: what the shell tests of this folder share, by `. "$(dirname "$0")/counted.sh"`: the top of the repository, a folder of
# their own that goes when they end, and how many comparisons came out as they should, with a line for each that didn't.
# shellcheck shell=sh disable=SC2034 # those that read this use its variables
set -u
unset CDPATH
top=$(cd "$(dirname "$0")/.." && pwd)
work=$(mktemp -d) || exit 1
trap 'rm -rf "$work"' EXIT
passed=0
failed=0

# built PROGRAM: prints its absolute path; if it can't be run, prints a line and returns status 2
built() {
	path=$(cd "$(dirname "$1")" && pwd)/$(basename "$1")
	[ -x "$path" ] || {
		echo "$(basename "$0"): there is no program $path: 'make' builds it" >&2
		return 2
	}
	echo "$path"
}

# right: one more that is as it should be
right() {
	passed=$((passed + 1))
}

# wrong LINE: one more that isn't
wrong() {
	failed=$((failed + 1))
	echo "$1"
}

# is WHAT GOT WANTED: the two are the same
is() {
	if [ "$2" = "$3" ]; then right; else wrong "$1: '$2', wanted '$3'"; fi
}

# ok WHAT COMMAND..: the command's status is 0; what it says is in $work/said
ok() {
	label=$1
	shift
	if "$@" >"$work/said" 2>&1; then right; else wrong "$label: $(tail -n 5 "$work/said")"; fi
}

# counted [MORE]: the last line, and whether all of them, and at least one, were as they should be
counted() {
	echo "$passed passed, $failed failed${1:-}"
	[ "$failed" -eq 0 ] && [ "$passed" -gt 0 ]
}
