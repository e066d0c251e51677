#!/bin/sh
# manual.sh TOOL: prints the manual page of the tool at that path, made from its --help. The line that sums up the tool comes from
# the table of docs/TOOLS.md, and version and date from bootmem.1. The tool must be able to run here.
set -eu
unset CDPATH
top=$(cd "$(dirname "$0")/.." && pwd)
name=$(basename "$1")
case $name in
bootmem-collect) row=collect.sh ;;
*) row=$name ;;
esac
what=$(sed -n "s/^| \`$row\` | \(.*\) |\$/\1/p" "$top/docs/TOOLS.md" | sed 's/; installed as .*//' | tr -d '`')
[ -n "$what" ] || {
	echo "manual.sh: docs/TOOLS.md has no line for $row in its table" >&2
	exit 1
}
upper=$(echo "$name" | tr '[:lower:]' '[:upper:]' | sed 's/-/\\-/g')
help=$("$1" --help)
sed -n "s/^\.TH BOOTMEM 1/.TH $upper 1/p" "$top/bootmem.1"
printf '.SH NAME\n%s \\- %s\n.SH SYNOPSIS\n' "$(echo "$name" | sed 's/-/\\-/g')" "$(echo "$what" | sed 's/-/\\-/g')"
printf '%s\n' "$help" | awk '
	# the line as roff reads it as text
	function text(line) {
		gsub(/\\/, "\\e", line); gsub(/-/, "\\-", line); gsub(/\047/, "\\(aq", line); gsub(/`/, "\\(ga", line)
		return line ~ /^\./ ? "\\&" line : line
	}
	function plain() { if (kept) print ".fi"; kept = 0 }
	function keep() { if (!kept) print ".nf"; kept = 1 }
	function section(title) { plain(); print ".SH " title; gap = 0 }
	NR == 1 || usage && /^ / { if (NR == 1) { usage = 1; keep() }; sub(/^(usage:|      ) /, ""); print text($0); next }
	usage { usage = 0; section("DESCRIPTION") }
	/^positional arguments:$/ { section("ARGUMENTS"); next }
	/^options:$/ { section("OPTIONS"); next }
	/^exit status: / { section("EXIT STATUS"); sub(/^exit status: /, "") }
	/^examples?:$/ { section("EXAMPLES"); keep(); next }
	/^This tool isn.t proved/ { section("NOTES") }
	/^$/ { plain(); gap = 1; next }
	# two columns: a term, two or more blanks, and its description
	/^  [^ ]/ && !kept && match(substr($0, 3), /[^ ]   *[^ ]/) {
		print ".TP"; print "\\fB" text(substr($0, 3, RSTART)) "\\fR"; print text(substr($0, 3 + RSTART + RLENGTH - 2)); gap = 0; list = 1; next
	}
	/^  [^ ]/ && !kept && (list || substr($0, 3, 1) == "-") { print ".TP"; print "\\fB" text(substr($0, 3)) "\\fR"; gap = 0; list = 1; next }
	/^          / && list { sub(/^ */, ""); print text($0); next }
	/^ / { if (!kept && gap) print ".PP"; keep(); gap = 0; list = 0; sub(/^  /, ""); print text($0); next }
	{ plain(); if (gap || list) print ".PP"; gap = 0; list = 0; print text($0) }
	END { plain() }'
printf '.SH SEE ALSO\n.BR bootmem (1),\n.BR bootmem (5);\n.I TOOLS.md\nof the documents has examples with what they print.\n'
