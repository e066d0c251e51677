#!/bin/sh
# install.sh [--uninstall] [PREFIX]: installs the files next to this script under PREFIX, or removes
# them from there. PREFIX is /usr/local by default; if DESTDIR is set, it is put before PREFIX.
set -eu
unset CDPATH
umask 022
usage() {
	sed -n '2,3s/^# //p' "$0"
}

uninstall=
if [ "${1-}" = --uninstall ]; then
	uninstall=1
	shift
fi
case $#${1-} in
1--help | 1-h)
	usage
	exit
	;;
0 | 1[!-]*) ;;
*)
	usage >&2
	exit 2
	;;
esac
prefix=${1:-/usr/local}
case $prefix in
/*) ;;
*) prefix=$PWD/$prefix ;;
esac
root=${DESTDIR-}$prefix
cd "$(dirname "$0")"

# found TEST..: prints the paths below the folders here that pass these tests of find
found() {
	for folder in */; do
		find "${folder%/}" "$@"
	done
}

# remove: removes what was installed, and the folders with bootmem in their path
remove() {
	found ! -type d | (cd "$root" && xargs rm -f)
	found -type d | grep bootmem | sort -r | (cd "$root" && xargs rmdir 2>/dev/null) || :
}

if [ -n "$uninstall" ]; then
	[ ! -d "$root" ] || remove
	exit
fi
if command -v sha256sum >/dev/null 2>&1; then
	sums=$(sha256sum -c SHA256SUMS 2>&1) || {
		printf '%s\n' "$sums" | grep -v ': OK$' >&2
		echo "install.sh: the files aren't those of the archive; nothing is installed" >&2
		exit 1
	}
fi
mkdir -p "$root"
remove
for folder in */; do
	cp -R -P "${folder%/}" "$root"
done
# puts PREFIX into the files that have @PREFIX@ in its place
escaped=$(printf '%s\n' "$prefix" | sed 's/[&|\\]/\\&/g')
found -type f | xargs grep -l @PREFIX@ | while read -r file; do
	sed "s|@PREFIX@|$escaped|g" "$file" >"$root/$file"
done
echo "bootmem is installed; $prefix/bin/bootmem --help lists its words"
