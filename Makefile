# SPDX-License-Identifier: Apache-2.0 OR GPL-2.0-or-later

# make           proves and builds rcell and rcell-pipe into bin/; JOBS=1 if memory is short
# make try       compiles rcell without proofs and runs an example (two minutes)
# make test      compiles all programs without proofs into test-bin/, and runs every test that needs no proof (ten minutes)
# make check     the gate: every proof, edit and test, the programs, documents, release and packages
#                PARTS="lint documents" runs these parts alone, also of make test; PARTS=list names them
# make lint      checks sources and documents against the rules (seconds)
# make documents runs each example of the documents on the programs in bin/, and compares
# make edits     tries all wrong bodies and turned definitions: the proofs have to fail; OF="rcell cell_cats" those of these crates
# make reading   prints the definitions to believe, in reading order; COMMAND=r.stats for one command, or PROGRAM=rcell-pipe
# make example   proves and builds bin/rcell alone, and counts the land cover of examples/land-cover
# make install   puts what is built below PREFIX (/usr/local; DESTDIR goes before it); make uninstall removes it
# make dist      makes the release in dist/: tarball, packages, wheel, objects, bill of materials
# make python r qgis grass-check   builds and tests these packages
# make clean     removes all that was built
# make help-all  prints all targets: benchmarks, pictures, hostile runs, parts of the packages

# make example   and make: OBJECTS=FILE takes the proved objects of a release if they are of exactly these sources
# make static    links the programs as bin/NAME-static, which run on any Linux on x86-64
# make debian11  runs the release's quick start in a root of Debian 11 (as root, with debootstrap)
# make hostile   attacks the program: memory, reads, writes and bytes fail in turn, and the largest inputs (an hour)
# make fuzz      runs it on random input next to a plain model for SECONDS=60, from SEED=
# make bench     times each task next to C++, and doubles one dimension after another; BENCH=--short takes five minutes
# make figures   measures all that bench/RESULTS.md shows and writes it there, into README.md and into docs/speed.png (an hour)
# make pictures  draws the pictures of the documents
# make exchange  compares the program and the documents with GRASS and GDAL, if they are installed

# A folder that has targets of its own (python/, r/, qgis/, grass/) names them in its file targets.mk, with such lines for
# `make help-all`. Packages of Debian that a target needs are installed by `tools/debian.sh PACKAGE...`.

PREFIX ?= /usr/local
DESTDIR ?=
JOBS ?=
PARTS ?=
OBJECTS ?=
# Of Debian: python3-matplotlib, which is not seen by a Python of one's own.
PICTURES = /usr/bin/python3 tools/documents/pictures.py

# What the programs are built from: neither tests nor the edits that must fail.
CRATES = $(filter-out %_tests %/cell_core_test_maps,$(wildcard crates/*))
SOURCES = crates.txt $(shell find $(wildcard $(CRATES:%=%/src) $(CRATES:%=%/specs) $(CRATES:%=%/proofs)) -type f)

.PHONY: all try test install uninstall example documents check static dist debian11 edits hostile fuzz bench figures pictures exchange clean
.PHONY: help help-all

all: bin/rcell bin/rcell-pipe

# One run for all that is wanted: the programs share most of their crates, and not every kit keeps proofs from run to run.
WANTED = rcell rcell-pipe
example: WANTED = rcell
bin/rcell bin/rcell-pipe &: $(SOURCES)
	@sh tools/needs.sh
	@$(if $(OBJECTS),python3 tools/build/objects.py --from $(OBJECTS) $(WANTED) ||) python3 tools/build/build.py $(if $(JOBS),--jobs $(JOBS)) $(WANTED)

try:
	@sh tools/needs.sh
	@python3 tools/build/unproved.py --example rcell

test:
	@sh tools/needs.sh git || { echo '0 passed, 1 failed, 0 skipped'; exit 1; }
	@python3 tools/check.py --unproved $(PARTS)

# It stands on no source, so that it needs no kit: what is built is installed, also where a source is newer.
install:
	@sh packaging/install.sh "$(DESTDIR)$(PREFIX)"

uninstall:
	@sh packaging/install.sh --remove "$(DESTDIR)$(PREFIX)"

example: bin/rcell
	cd examples/land-cover && ../../bin/rcell script landuse=landuse.txt

documents: all
	python3 tools/documents/documents.py

check:
	@sh tools/needs.sh git || { echo '0 passed, 1 failed, 0 skipped'; exit 1; }
	@python3 tools/check.py $(PARTS)

# Of what was built last: whoever packs the program (the wheel of Python, the package of R) takes bin/rcell-static.
static:
	@python3 tools/build/objects.py
	@sh tools/build/static.sh bin

dist: all static
	@sh tools/needs.sh git
	@sh tools/debian.sh python3-hatchling r-base-core
	@sh tools/build/dist.sh dist

debian11: dist
	sh tools/build/debian11.sh dist

edits:
	python3 tools/build/edits.py --list --evidence $(OF)

hostile: bin/rcell
	python3 tools/hostile --clang "$$(dirname "$$(rt doc)")/toolchain/bin/clang"

SECONDS = 60
fuzz: bin/rcell
	python3 tools/model/fuzz.py --seconds $(SECONDS) $(if $(SEED),--seed $(SEED))

bench: all
	python3 bench/run.py $(BENCH)
	python3 bench/dimensions.py
	python3 bench/patches.py

figures: all
	@sh tools/debian.sh clang grass-core valgrind python3-matplotlib
	python3 bench/run.py --write $(BENCH)
	python3 bench/dimensions.py --write
	python3 bench/patches.py --write
	$(PICTURES) speed docs/speed.png
	-python3 tools/documents/documents.py --texts --write

pictures: bin/rcell
	@sh tools/debian.sh python3-matplotlib graphviz
	$(PICTURES) study docs/study.png
	$(PICTURES) examples examples
	$(PICTURES) islands examples/islands/islands.png
	$(PICTURES) speed docs/speed.png
	python3 tools/documents/crate_graph.py docs/crates.svg

exchange: bin/rcell
	python3 tools/grass/exchange.py

clean:
	rm -rf bin test-bin dist bench/out crates/*/out

help:
	@awk '/^# (make|   )/ { print substr($$0, 3); printed = 1; next } printed { exit }' Makefile

help-all:
	@sed -n 's/^# \(make\|   \)/\1/p' $(MAKEFILE_LIST)

-include */targets.mk
