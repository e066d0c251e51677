#!/bin/sh
# @PROGRAM@: runs the proved program with its own words and ends with the program's status. It answers --help, -h and --version by itself. If
# the program refused its words (status 2), couldn't read a file (3) or found a wrong checksum in a table (5), the script adds a line that says
# why. Nothing here is proved.
# The part that runs on every call comes first and starts no process except the program.
program=${0%/*}/../libexec/bootmem/@PROGRAM@
[ -x "$program" ] || program="@PREFIX@/libexec/bootmem/@PROGRAM@"
case ${1-} in
--help | -h | --version) ;;
*)
	# Ask for pages of 2 MiB, if the system gives them on advice: it then provides the 194 MB of a long report sooner.
	GLIBC_TUNABLES=glibc.malloc.hugetlb=1${GLIBC_TUNABLES:+:$GLIBC_TUNABLES}
	export GLIBC_TUNABLES
	# A signal to this script must end the program, too, so the program runs in the background. A shell gives a background process
	# /dev/null as standard input, so the script's own standard input is passed as descriptor 9.
	child='' signal=''
	trap 'signal=HUP; kill "$child" 2>/dev/null' HUP
	trap 'signal=INT; kill "$child" 2>/dev/null' INT
	trap 'signal=TERM; kill "$child" 2>/dev/null' TERM
	if { true 9<&0; } 2>/dev/null; then
		{ "$program" "$@" <&9 9<&- & } 9<&0
	else
		"$program" "$@" <&- &
	fi
	child=$!
	[ -z "$signal" ] || kill "$child" 2>/dev/null
	wait "$child"
	status=$?
	if [ -n "$signal" ]; then
		wait "$child"
		trap - "$signal"
		kill -s "$signal" $$
	fi
	case $status in
	2 | 3 | 5) ;;
	*) exit "$status" ;;
	esac
	;;
esac

case ${1-} in
--help | -h)
	help=${0%/*}/../share/bootmem/@PROGRAM@.help
	[ -r "$help" ] || help="@PREFIX@/share/bootmem/@PROGRAM@.help"
	exec cat "$help"
	;;
--version)
	echo "@PROGRAM@ @VERSION@ (@BUILT@)"
	exit
	;;
esac
explain=${program%/*}/explain
command -v python3 >/dev/null 2>&1 && python3 "$explain" @PROGRAM@ "$status" "$@" </dev/null >/dev/null || [ "$status" = 5 ] ||
	echo "@PROGRAM@: '@PROGRAM@ --help' lists the words" >&2
exit "$status"
