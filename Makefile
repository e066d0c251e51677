# bootmem: the boot-time memory set-up of x86-64 Linux 6.1, proved.
#
#   make run                  prints the map and the free blocks of an example machine, by ./bootmem if it is up to date, else by
#                             an unproved build, which takes about a minute
#   make                      proves and builds the three programs, as the next three do
#   make bootmem              proves and builds ./bootmem: some 35 minutes of processor time, and 10 minutes or more; it shows its progress
#   make bootmem61            proves and builds ./bootmem61, the boot by the profile of Linux 6.1; it has almost all crates of bootmem
#   make bootaudit            proves and builds ./bootaudit, the audit of saved reports, which takes some minutes
#   make lib                  proves and builds the library: libbootmem.a and libbootmem.so, for C and whatever calls C
#   make try ARGS="..."       runs bootmem on these words without proof, within a minute; PROGRAM=bootmem61 or bootaudit names another
#   make test                 the whole gate: every proof, every test, the real machines; it shows its progress, and keeps the whole
#                             log in test.log
#   make check                compares the documents with the sources, in some seconds; the gate does so too
#   make install PREFIX=DIR   installs the programs as they are, tools, manual pages, documents and examples, and the
#                             library where it is there, and proves nothing: without a program it stops, unless PROVE=1
#                             (DESTDIR and MANDIR are honoured)
#   make install PROGRAMS=bootmem  the same with one of the programs alone, or with two
#   make uninstall PREFIX=DIR removes what 'make install' put there
#   make dist                 makes an archive of what 'make install' installs, with a script that installs it without the
#                             toolchain, for other machines; like 'make deb', it stops if sources are newer than what was built
#   make deb                  makes Debian packages of what 'make install' installs (needs dpkg-deb)
#   make clean                removes what was built
#   make help                 prints these lines
#
# RT names the toolchain's command, where it isn't rt on the PATH: make bootmem RT=/opt/kit/bin/rt

VERSION := 0.1.0

RT ?= rt
PREFIX ?= /usr/local
MANDIR ?= $(PREFIX)/share/man
DESTDIR ?=
ARGS ?=
PROVE ?=

# the words of the first run
FIRST := --report map,buddyinfo examples/first/zp.bin

# sources FOLDER..: the files of those folders that a proof reads
sources = crates.txt $(if $(1),$(shell find $(1) -name out -prune -o \( -name '*.rt' -o -name '*.antt' \) -print))
SOURCES := $(call sources,crates)
AUDIT := $(call sources,$(wildcard $(addprefix crates/,bm_base bm_io audit_lines boot_audit bootaudit)))

export RT

PROGRAMS := bootmem bootmem61 bootaudit

# the program that 'make try' runs, and the crate of its main
PROGRAM ?= bootmem
MAIN = $(patsubst bootmem%,bootmem%_cli,$(PROGRAM))

LIBRARY := libbootmem.a

.PHONY: all lib run try test check install uninstall dist deb clean help
.PHONY: current

all: $(PROGRAMS)

bootmem: $(SOURCES)
	@tools/build.sh bootmem_cli $@ --report map "$(CURDIR)/examples/first/zp.bin"

bootmem61: $(SOURCES)
	@tools/build.sh bootmem61_cli $@ --report map "$(CURDIR)/examples/first/zp.bin"

bootaudit: $(AUDIT)
	@tools/build.sh bootaudit $@ $(addprefix "$(CURDIR)"/crates/bootaudit/data/,map owners blocks)

lib: $(LIBRARY)

$(LIBRARY): $(SOURCES)
	@tools/library.sh "$(VERSION)"

run:
	@if $(MAKE) -q --no-print-directory bootmem >/dev/null 2>&1; then ./bootmem $(FIRST); else tools/try.sh bootmem_cli $(FIRST) </dev/null; fi

try:
	@tools/try.sh $(MAIN) $(ARGS)

# the gate calls rt by its name, so a toolchain that RT names goes onto the PATH
test:
	@PATH="$(if $(findstring /,$(RT)),$(abspath $(dir $(RT))):)$$PATH" tools/show_progress.py test.log .ci/run

check:
	@tests/sources.sh

# a program that is there is installed as it is: an installation proves nothing, but where PROVE=1 asks for it
install:
	@for program in $(PROGRAMS); do \
		if [ ! -f $$program ] && [ "$(PROVE)" = 1 ]; then $(MAKE) --no-print-directory $$program || exit 1; \
		elif [ ! -f $$program ]; then \
			echo "$$program: there is no ./$$program to install: 'make $$program' proves and builds it, which takes a while;" \
				"'make install PROVE=1' does both" >&2; exit 1; \
		elif ! $(MAKE) -q --no-print-directory $$program >/dev/null 2>&1; then \
			echo "$$program: some sources are newer than ./$$program, which is installed as it is; 'make $$program' builds it anew" >&2; fi; \
	done
	@VERSION="$(VERSION)" PROGRAMS="$(PROGRAMS)" tools/install.sh install "$(DESTDIR)" "$(PREFIX)" "$(MANDIR)"

uninstall:
	@tools/install.sh uninstall "$(DESTDIR)" "$(PREFIX)" "$(MANDIR)"

dist: current
	@tools/dist.sh "$(VERSION)" "$(MAKE)"

deb: current
	@tools/deb.sh "$(VERSION)" "$(MAKE)"

# what is handed on was built from these sources, and names the commit and the kit
current:
	@for file in $(PROGRAMS) $(wildcard $(LIBRARY)); do \
		built=$${file%.a}.built; \
		if [ ! -f $$file ]; then \
			echo "$$file: there is no ./$$file to pack: 'make $$file' proves and builds it, which takes a while" >&2; exit 1; \
		elif ! $(MAKE) -q --no-print-directory $$file >/dev/null 2>&1; then \
			echo "$$file: some sources are newer than ./$$file: 'make $$file' builds it anew" >&2; exit 1; \
		elif [ ! -f $$built ] || [ -n "$$(find $$file -newer $$built)" ]; then \
			echo "$$file: no ./$$built names its commit and kit: 'make -B $$file' builds both anew" >&2; exit 1; fi; \
	done

clean:
	rm -f $(PROGRAMS) $(PROGRAMS:=.built) libbootmem.* bootmem-*.tar.gz bootmem_*.deb bootmem-dev_*.deb test.log
	rm -rf crates/*/out

help:
	@sed -n '3,25s/^# *//p' Makefile | sed '/^$$/d; s/^/  /'
