#!/bin/sh
# allocations.sh [PROGRAM [MOST]]: makes each allocation of a run fail, one number at a time, over boots with options and an extension,
# boots whose tables grow one inside the other, and one with nodes, sections and a script. If PROGRAM is bootmem61, it also boots with
# early claims that are refused, that the script frees, and that make a table grow. The answer is 7 with nothing on standard
# output and the one line on standard error, or the output of the run in which none fails. The first allocations, with which the words
# themselves are collected, answer 7 without a line.
# It prints how many allocations each run has: 118 to 311. If there are more than MOST (default 2000), it takes MOST numbers, evenly
# spaced. It runs one boot per processor at a time.
# It isn't part of the gate: it needs a C compiler, and a program that takes malloc by LD_PRELOAD, which a sanitizer's doesn't.
. "$(dirname "$0")/counted.sh"
"${CC:-cc}" -shared -fPIC -O2 -o "$work/fail_alloc.so" "$top/tests/fail_alloc.c" || exit 1
"$top/tests/allocations.py" "$work/fail_alloc.so" "${1:-$top/bootmem}" "${2:-2000}"
