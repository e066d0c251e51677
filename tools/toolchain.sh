#!/bin/sh
# toolchain.sh: fails with a message if there is no toolchain. The file `kits` next to it names the versions (kits) that prove this program.
rt=${RT:-rt}
kits=$(tr '\n' ' ' <"$(dirname "$0")/kits")
command -v "$rt" >/dev/null 2>&1 || {
	echo "bootmem: there is no command '$rt': the toolchain Rattle (one of: ${kits% }) proves and builds this program; put its bin/ on the PATH, or set RT" >&2
	exit 1
}
