#!/bin/sh
# dist.sh VERSION MAKE: makes bootmem-VERSION-COMMIT-ARCHITECTURE.tar.gz for machines without the
# toolchain. COMMIT ends with -changed if some file differs from it. The archive has one folder. It
# contains what 'make install' puts under a PREFIX, and also
#
#   install.sh  copies all of it under a PREFIX (tools/unpacked.sh)
#   README      says how to run and install it
#   BUILD       the archive's commit, and the commit and the kit of each program
#   SHA256SUMS  the checksum of each file
#
# The same commit and programs give the same bytes: names are sorted, root owns all files, and their
# time is that of the commit, or SOURCE_DATE_EPOCH.
set -eu
unset CDPATH
umask 022
cd "$(dirname "$0")/.."
version=$1
make=$2
commit=$(git rev-parse --short=12 HEAD 2>/dev/null) || {
	echo "dist.sh: there is no commit to name: this isn't a repository of git" >&2
	exit 1
}
[ -z "$(git status --porcelain)" ] || commit=$commit-changed
seconds=${SOURCE_DATE_EPOCH:-$(git log -1 --format=%ct)}
name=bootmem-$version-$commit-$(uname -m)
work=$(mktemp -d)
trap 'rm -rf "$work"' EXIT
top=$work/$name

# the archive's install.sh replaces @PREFIX@ with the folder of the installation
"$make" --no-print-directory install DESTDIR="$work/" PREFIX=@PREFIX@ MANDIR=@PREFIX@/share/man
mv "$work/@PREFIX@" "$top"
[ -f "$top/lib/libbootmem.a" ] ||
	echo "dist.sh: there is no libbootmem.a, so the archive has no library;" \
		"'make lib' proves and builds it" >&2
install -m 755 tools/unpacked.sh "$top/install.sh"
{
	echo "archive: commit $commit"
	cat "$top/share/doc/bootmem/BUILD"
} >"$top/BUILD"
cat >"$top/README" <<END
bootmem $version: the boot-time memory set-up of x86-64 Linux 6.1, proved

It runs in this folder:

    bin/bootmem --report map,buddyinfo share/bootmem/examples/first/zp.bin

'./install.sh PREFIX' installs it under PREFIX, which is /usr/local by default, and
'./install.sh --uninstall PREFIX' removes it. The script needs no toolchain, no make and no Python.
Here the pages and documents have @PREFIX@ for that folder; the installed ones name it.

share/doc/bootmem/README.md says what bootmem answers, and what programs and tools need. BUILD names
the commits and the toolchain. 'sha256sum -c SHA256SUMS' checks the files.
Licence: not chosen yet by the owner.
END
(cd "$top" && find . -type f -printf '%P\0' | LC_ALL=C sort -z | xargs -0 sha256sum) >"$work/sums"
mv "$work/sums" "$top/SHA256SUMS"

tar -c -f "$work/tar" -C "$work" --format=gnu --sort=name --owner=root:0 --group=root:0 \
	--numeric-owner --mtime="@$seconds" "$name"
gzip -9n "$work/tar"
cp "$work/tar.gz" "$name.tar.gz"
echo "$name.tar.gz"
