#!/bin/sh
# built.sh: prints "commit COMMIT; kit KIT" for a program that was just built: the newest commit and
# the toolchain's version. COMMIT ends with ", changed" if a file of crates/ differs from it.
set -eu
unset CDPATH
rt=${RT:-rt}
top=$(cd "$(dirname "$0")/.." && pwd)
commit=$(git -C "$top" rev-parse --short=12 HEAD 2>/dev/null) || commit=unknown
changes=$(git -C "$top" status --porcelain -- crates 2>/dev/null) || changes=
[ -z "$changes" ] || commit="$commit, changed"
kit=$(head -n 1 "$(dirname "$("$rt" doc)")/KIT-ID" 2>/dev/null) || kit=
echo "commit $commit; kit ${kit:-unknown}"
