#!/bin/sh
# sources.sh: compares the documents with the sources, in some seconds and without a proof: the words of
# tools/bootmem_tools/words.txt, the clauses that wrong bodies name, what documents name, the table of crates and that of
# definitions. 'make check' runs it alone. It ends with the first failing status; without python3 it says that nothing is
# compared.
unset CDPATH
cd "$(dirname "$0")/.." || exit 1
command -v python3 >/dev/null 2>&1 || {
	echo "tests/sources.sh: skipped: there is no python3"
	exit 0
}
python3 tests/run.py --sources
