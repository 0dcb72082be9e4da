# Times are those of four quiet cores, with processor time behind them.
#
# make try        builds the program without proofs in a minute (2 minutes of a processor), and makes the stored run of rulesim;
#                 ARGS="tcprulescheck x" runs any tool of it
# make test       builds the program and that of the tests without proofs, and runs all tests that need no proved program, in
#                 9 minutes (18 of a processor); GROUPS="cookbook" runs some
# make            proves and builds the program in half an hour (80 minutes of a processor); what out/ has of it is used
# make run        makes the stored run on the proved program
# make install    PREFIX=..  puts the program, a link of each tool's name, the man pages, bash's completion and the log reader in place; it
#                 builds nothing. MANDIR is the folder of the pages, DESTDIR stands in front of all, FORCE=1 replaces files of others
# make uninstall  takes them away, and no file of others
# make dist       packs an archive for x86-64 Linux with glibc into dist/, and its SHA-256
# make deb        packs a Debian package into dist/, which stands beside Debian's ucspi-tcp
# make check      proves everything from nothing in forty minutes or more (one or two hours of a processor), and runs all tests
# make edits      tries the edits of tests/edits, which the prover has to refuse: an hour or two, before a release
# make bench      times the tools and the server, and measures their memory
# make clean      takes away all that was built, proofs too
# make help       prints this

prefix ?= /usr/local
PREFIX ?= $(prefix)
MANDIR ?= $(mandir)
PROGRAM := crates/ucspi/out/ucspi
TOOLS := addcr delcr fixcrio recordio rulesim tcprules tcprulescheck tcpserver
# the program of the tests
PROBE := crates/test_site/out/test_site
# both, built without proofs
TRIED := out/try/ucspi
TRIED_PROBE := out/try/test_site
# how many processors the checks have: all, but no more than one for each 4 GB of free memory, twice what the largest check takes on one
RT_JOBS ?= $(shell awk -v most=$$(nproc) '/^MemAvailable/ { room = int($$2 / 4000000); print room < 1 ? 1 : room < most ? room : most }' /proc/meminfo)
SOURCES := HANDLES crates.txt $(shell find crates -name out -prune -o -type f -print)

.PHONY: all try test run check edits probes bench install uninstall dist deb clean help

all: $(PROGRAM)

$(PROGRAM): $(SOURCES)
	@RT_JOBS=$(RT_JOBS) scripts/prove ucspi
	@touch $@

$(PROBE): $(SOURCES)
	@RT_JOBS=$(RT_JOBS) scripts/prove test_site
	@touch $@

$(TRIED): $(filter %.rt crates.txt,$(SOURCES))
	@scripts/try build ucspi $@ $(TOOLS)

$(TRIED_PROBE): $(filter %.rt crates.txt,$(SOURCES))
	@scripts/try build test_site $@

try: $(TRIED)
	@scripts/try run $(TRIED) $(ARGS)

test:
	@$(MAKE) -s -j 2 $(TRIED) $(TRIED_PROBE)
	@tests/run --tried $(GROUPS)

run:
	@test -e $(PROGRAM) || echo "There is no proved program yet: it is proved and built first, in half an hour or so on four cores; make try takes a minute."
	@$(MAKE) -s $(PROGRAM)
	$(PROGRAM) rulesim <crates/ucspi/stdin

check:
	RT_JOBS=$(RT_JOBS) scripts/costs --gate
	touch $(PROGRAM) $(PROBE)
	tests/run

edits:
	scripts/edits

probes: $(PROBE)

bench: $(PROGRAM)
	bench/run
	bench/server

install:
	@PROGRAM="$(PROGRAM)" scripts/install PREFIX="$(PREFIX)" MANDIR="$(MANDIR)" DESTDIR="$(DESTDIR)" FORCE="$(FORCE)"

uninstall:
	@scripts/install uninstall PREFIX="$(PREFIX)" MANDIR="$(MANDIR)" DESTDIR="$(DESTDIR)"

dist: $(PROGRAM)
	@PROGRAM="$(PROGRAM)" scripts/package dist

deb: $(PROGRAM)
	@PROGRAM="$(PROGRAM)" scripts/package deb

clean:
	rm -rf out dist crates/*/out

help:
	@sed -n '/^#/!q; s/^# \{0,1\}//p' Makefile
