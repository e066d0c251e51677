#!/bin/sh
# deb.sh VERSION MAKE: makes bootmem_VERSION_ARCHITECTURE.deb of what 'make install PREFIX=/usr' installs, with the programs stripped. If libbootmem.a
# exists, it also makes bootmem-dev_VERSION_ARCHITECTURE.deb of the library.
# The variable MAINTAINER is the package's maintainer; by default it is the author of the newest commit.
set -eu
unset CDPATH
cd "$(dirname "$0")/.."
version=$1
make=$2
architecture=$(dpkg --print-architecture)
maintainer=${MAINTAINER:-$(git log -1 --format='%an <%ae>')}
root=$(mktemp -d)
dev=$(mktemp -d)
trap 'rm -rf "$root" "$dev"' EXIT
chmod 755 "$root" "$dev"

# package ROOT NAME DEPENDS: makes the package of the files under ROOT; standard input is its description
package() {
	install -d "$1/DEBIAN"
	(cd "$1" && find usr -type f -print0 | sort -z | xargs -0 md5sum) >"$1/DEBIAN/md5sums"
	{
		printf 'Package: %s\nVersion: %s\nArchitecture: %s\nMaintainer: %s\nSection: %s\nPriority: optional\n' \
			"$2" "$version" "$architecture" "$maintainer" "$(case $2 in *-dev) echo libdevel ;; *) echo admin ;; esac)"
		printf 'Depends: %s\nInstalled-Size: %s\nDescription: ' "$3" "$(du -k -s "$1/usr" | cut -f1)"
		cat
	} >"$1/DEBIAN/control"
	dpkg-deb --root-owner-group --build "$1" "$2_${version}_$architecture.deb" >&2
	echo "$2_${version}_$architecture.deb"
}

"$make" --no-print-directory install DESTDIR="$root" PREFIX=/usr
for program in bootmem bootmem61 bootaudit; do
	strip --strip-unneeded --remove-section=.comment --remove-section=.note "$root/usr/libexec/bootmem/$program"
done
doc=$root/usr/share/doc/bootmem
# the change log that Debian requires; it names the one for users, CHANGELOG.md
{
	printf 'bootmem (%s) unstable; urgency=medium\n\n  * See CHANGELOG.md.\n\n' "$version"
	printf ' -- %s  %s\n' "$maintainer" "$(date -R -u -d "$(sed -n "s/^## $version, //p" CHANGELOG.md)")"
} >"$doc/changelog"
gzip -9n "$doc/changelog" "$root"/usr/share/man/man[15]/*
echo "Licence: not chosen yet by the owner." >"$doc/copyright"

# dependencies: the packages of the program's libraries, the C library in the lowest version that will do, and python3 for the tools
library=$(objdump -T "$root/usr/libexec/bootmem/bootmem" | grep -o 'GLIBC_[0-9.]*' | sed 's/GLIBC_//' | sort -V | tail -n 1)
depends=$(
	ldd "$root/usr/libexec/bootmem/bootmem" | sed -n 's/.*=> \(\/[^ ]*\) .*/\1/p' |
		while read -r library; do
			dpkg -S "$library" 2>/dev/null || dpkg -S "$(readlink -f "$library")" 2>/dev/null || dpkg -S "/usr$library" 2>/dev/null || :
		done | sed -e 's/:.*//' -e "s/^libc6\$/libc6 (>= $library)/" | sort -u
	! grep -q '^#!.*python3' "$root"/usr/bin/* || echo python3
)
# the library and what a program needs to call it go into a package of their own
if [ -f "$root/usr/lib/libbootmem.a" ]; then
	mkdir -p "$dev/usr/lib" "$dev/usr/share/bootmem" "$dev/usr/share/doc/bootmem-dev"
	mv "$root"/usr/lib/libbootmem.* "$root/usr/lib/pkgconfig" "$dev/usr/lib"
	mv "$root/usr/include" "$dev/usr"
	mv "$root/usr/share/bootmem/bindings" "$dev/usr/share/bootmem"
	strip --strip-unneeded "$dev/usr/lib/libbootmem.so.$version"
	cp "$doc/copyright" "$doc/changelog.gz" "$doc/BUILD" "$dev/usr/share/doc/bootmem-dev"
	package "$dev" bootmem-dev "libc6" <<END
libbootmem: the memory set-up of x86-64 Linux 6.1 from C
 The program bootmem as one call over bytes in memory, proved as it is: a static
 and a shared library, the C header, and a crate for Rust; the package bootmem
 has a module of Python over it.
END
else
	echo "deb.sh: there is no libbootmem.a, so no package bootmem-dev is made; 'make lib' proves and builds it" >&2
fi
package "$root" bootmem "$(printf '%s\n' "${depends:-libc6 (>= $library)}" | paste -s -d , - | sed 's/,/, /g')" <<END
boot-time memory set-up of x86-64 Linux 6.1, proved
 Carries out the memory set-up of a 64-bit x86 Linux 6.1 kernel on described
 memory: from the bytes of the firmware's tables and the kernel's command line
 to the free blocks of the buddy lists. It answers which addresses are RAM,
 whether a crash area fits and where, which node and zone each range has, who
 holds what, and which frames are free. bootmem61 answers by the rules of Linux
 6.1 for the size of a crash area and for the borders of zones. bootaudit says
 of such reports, saved from another machine or another program, whether memory
 was conserved.
 .
 bootmem was built from $(cat bootmem.built 2>/dev/null || echo "a commit and with a kit that nothing names").
END
