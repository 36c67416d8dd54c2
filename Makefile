# The toolchain is the command `rt`; `rt version` names it.
PROGRAM := crates/ninja_explain
BUILT := $(PROGRAM)/out/ninja_explain
GRAPH := crates/ninja_graph/out/ninja_graph
# The library for C as it is proved, and the archive of the toolchain with the object that calls
# `malloc` and `free` for it.
PROVED_C := crates/nj_c/out/libnj_c.a
HEAP = $(shell find "$$(dirname "$$(dirname "$$(readlink -f "$$(which rt)")")")" -name liblibc_c.a -print -quit)
LIBRARY := lib/libninja_explain
PROJECT := examples/project
FILES := $(shell cd $(PROJECT) && find * -type f)
# How many crates are proved at once, each on one processor and in at most 3 GB, and how many checks
# run at once.
JOBS ?= $(shell nproc)

# The files that `make install` installs, from which directory, and where it puts things, with DESTDIR in front of
# every path.
NAMES := ninja-explain ninja-graph
BIN := bin
PREFIX ?= /usr/local
SHARE := $(DESTDIR)$(PREFIX)/share
INSTALLED_PROGRAMS := $(DESTDIR)$(PREFIX)/bin
INSTALLED_PAGES := $(SHARE)/man/man1
INSTALLED_BASH := $(SHARE)/bash-completion/completions
INSTALLED_ZSH := $(SHARE)/zsh/site-functions
INSTALLED_FISH := $(SHARE)/fish/vendor_completions.d
INSTALLED_HEADERS := $(DESTDIR)$(PREFIX)/include
INSTALLED_LIBRARY := $(DESTDIR)$(PREFIX)/$(LIBRARY)
INSTALLED_PC := $(DESTDIR)$(PREFIX)/lib/pkgconfig/ninja_explain.pc

# The targets that prove, build or run something: they need the toolchain.
NEEDING := all c run test check edits gate lint smoke c-test fuzz-c sweep dist wheel dist-check
ifneq ($(filter $(NEEDING),$(or $(MAKECMDGOALS),all)),)
ifeq ($(shell command -v rt),)
$(error there is no rt on the PATH, the command of the Rattle toolchain; README.md, "Install", says more)
endif
endif

.PHONY: help pages map all c run test check edits gate lint smoke c-test sweep install install-c uninstall dist dist-check
.PHONY: fuzz-c wheel save-proofs load-proofs clean

# Proves and builds the programs as bin/ninja-explain and bin/ninja-graph. `rt all` proves a program and
# the crates below it, several at once; `rt run` then builds the program from what was proved.
all:
	python3 scripts/prove.py ninja_explain --jobs $(JOBS)
	python3 scripts/prove.py ninja_graph --jobs $(JOBS)
	cd $(PROGRAM) && rt run --jobs 1 < stdin > /dev/null
	cd $(dir $(GRAPH)).. && rt run --jobs 1 -- --version > /dev/null
	mkdir -p bin
	cp $(BUILT) bin/ninja-explain
	cp $(GRAPH) bin/ninja-graph

# Lists the targets, each with the first sentence of the comment above it.
help:
	@awk -F: '/^# / { text = text substr($$0, 2); next } \
	/^[a-z][a-z-]*:/ && text { sub(/\. .*/, ".", text); printf "%-12s%s\n", $$1, text } { text = "" }' Makefile

# Proves the library for C and builds it in lib/, static and shared, with a file for pkg-config that
# finds it here. docs/C.md describes it.
c:
	python3 scripts/prove.py nj_c --jobs $(JOBS)
	cd crates/nj_c && rt lib
	$(MAKE) $(LIBRARY).so lib/pkgconfig/ninja_explain.pc

$(PROVED_C): $(wildcard crates/*/src/*.rt)
	python3 scripts/prove.py nj_c --jobs $(JOBS)
	cd crates/nj_c && rt lib

$(LIBRARY).a: $(PROVED_C)
	mkdir -p lib
	cp $(PROVED_C) $@
	cd lib && ar x "$(HEAP)" heap.pic.o && ar rs $(@F) heap.pic.o && rm heap.pic.o

$(LIBRARY).so.1: $(LIBRARY).a include/ninja_explain.map
	$(CC) -shared -o $@ -Wl,-soname,$(@F) -Wl,--version-script,include/ninja_explain.map \
	-Wl,-z,relro,-z,now,--no-undefined -Wl,--whole-archive $(LIBRARY).a -Wl,--no-whole-archive

$(LIBRARY).so: $(LIBRARY).so.1
	ln -sf $(<F) $@

lib/pkgconfig/ninja_explain.pc: include/ninja_explain.pc.in
	mkdir -p $(@D)
	sed 's|@PREFIX@|$(CURDIR)|' $< > $@

# Builds the program without any proof, and prints the commands of a project in three files. With
# FOLDER=.. it runs on the *.ninja files in that directory and below, with the arguments WORDS='..'; after
# an argument `;` comes another question. Both are passed on through the environment, so quotes stay.
run:
ifdef FOLDER
	@python3 scripts/try_folder.py "$$FOLDER" "$$WORDS"
else
	cd $(PROGRAM) && rt try $(foreach file,$(FILES),--data $(file)=../../$(PROJECT)/$(file)) -- -t commands
endif
	@echo "Nothing is proved yet: 'make' proves and builds the program, 'make gate' proves all."

# Runs all rows and stored runs, with run-time checks and without any proof, and the checks that read
# files alone. With ROWS=loads it runs only the rows of that file, tests/*/data/loads.rows; with
# BEFORE_GATE=1 it leaves out the programs of crates/, which the gate runs.
test:
	@python3 scripts/run_tests.py --jobs $(JOBS) $(if $(ROWS),--rows "$(ROWS)") $(if $(BEFORE_GATE),--before-gate)

# The checks of one crate before a commit, with CRATE=nj_text: its check, its edits, the tests
# and rows on it, and the layout of its files. It names the crates above.
check:
	@python3 scripts/check_crate.py $(CRATE)

# Tries the must-fail edits of the crates that changed since theirs were refused, and writes where each
# was refused in edits/refused. With CRATES='nj_text ..' it tries those of these crates, with ALL=1 all.
edits:
	@python3 scripts/edits.py $(if $(ALL),--all) $(CRATES)

# The gate: every proof from nothing and the stored runs, by `rt ci`; the must-fail edits of the crates
# that changed since theirs were refused, and some of two others; and `make smoke`. With ALL=1 it tries all
# edits. The program remains in $(BUILT).
gate:
	@scripts/gate.sh $(if $(ALL),--all)

# Writes the pages, and the parts of pages, that scripts read off the sources.
pages:
	@python3 scripts/map.py && python3 scripts/reference.py && python3 scripts/headline.py
	@python3 scripts/believed.py --write && python3 scripts/one_answer.py

# Prints each crate with its lines and must-fail edits, and each file with its subject.
map:
	@python3 scripts/map.py --print

# Runs the checks that read files alone: docs/GATE.md lists them. It takes a minute, and needs no built program.
lint:
	@python3 scripts/lint --jobs $(JOBS) $(CHECKS)

# Runs the built programs on real files, and the short sweeps. With CHECKS='NAME..' it runs the checks
# of these names alone, as lint and sweep do.
smoke: $(BUILT) $(GRAPH)
	@python3 scripts/smoke --jobs $(JOBS) $(CHECKS)

# Runs the library for C and the examples on it beside the program, and on inputs that it must refuse.
c-test: $(BUILT) $(GRAPH) $(LIBRARY).so
	python3 scripts/c_test.py --jobs $(JOBS) $(BUILT) $(GRAPH)

SECONDS ?= 60
# Feeds the library for C with what libFuzzer makes of our seeds, for SECONDS, on as many processors as
# JOBS gives. It needs clang with libFuzzer's runtime, says so before anything is built where there is
# none, and is no part of the gate. docs/RELIABILITY.md describes it.
fuzz-c:
	@python3 scripts/fuzz_c.py --tools
	@$(MAKE) --silent $(LIBRARY).a
	@python3 scripts/fuzz_c.py --jobs $(JOBS) --seconds $(SECONDS)

# Makes everything that can fail do so once, changes each byte of small projects, runs every tool and
# subcommand on 100,000 edges and with little stack, and runs both programs on 100,000 hostile manifests.
sweep: $(BUILT) $(GRAPH)
	@python3 scripts/sweep --jobs $(JOBS) $(CHECKS)

# `make` and `make gate` build them.
$(BUILT) $(GRAPH): $(wildcard crates/*/src/*.rt)
	$(MAKE) all

# Installs the programs that `make` built, their man pages, and completions for three shells; and the
# library for C where `make c` built it. Refuses files that name no logic in which they were proved.
install:
	@for name in $(NAMES); do test -x "$(BIN)/$$name" || \
	{ echo "there is no $(BIN)/$$name to install: prove and build it first, with 'make'" >&2; exit 1; }; done
	@python3 scripts/is_proved.py $(NAMES:%="$(BIN)/%")
	@if [ -d lib ]; then $(MAKE) install-c; fi
	install -D -m 755 -t "$(INSTALLED_PROGRAMS)" $(NAMES:%="$(BIN)/%")
	install -D -m 644 -t "$(INSTALLED_PAGES)" $(NAMES:%=man/%.1)
	for name in $(NAMES); do \
	install -D -m 644 completions/$$name.bash "$(INSTALLED_BASH)/$$name" || exit 1; done
	install -D -m 644 -t "$(INSTALLED_ZSH)" $(NAMES:%=completions/_%)
	install -D -m 644 -t "$(INSTALLED_FISH)" $(NAMES:%=completions/%.fish)

# Installs the library for C with its header.
install-c:
	@python3 scripts/is_proved.py $(LIBRARY).a $(LIBRARY).so.1
	install -D -m 644 -t "$(INSTALLED_HEADERS)" include/*.h
	install -D -m 644 $(LIBRARY).a "$(INSTALLED_LIBRARY).a"
	install -D -m 755 $(LIBRARY).so.1 "$(INSTALLED_LIBRARY).so.1"
	ln -sf $(notdir $(LIBRARY)).so.1 "$(INSTALLED_LIBRARY).so"
	mkdir -p "$(dir $(INSTALLED_PC))"
	sed 's|@PREFIX@|$(PREFIX)|' include/ninja_explain.pc.in > "$(INSTALLED_PC)"

# Removes what `make install` with the same PREFIX and DESTDIR installed, except directories.
uninstall:
	for name in $(NAMES); do rm -f "$(INSTALLED_PROGRAMS)/$$name" "$(INSTALLED_PAGES)/$$name.1" \
	"$(INSTALLED_BASH)/$$name" "$(INSTALLED_ZSH)/_$$name" "$(INSTALLED_FISH)/$$name.fish"; done
	rm -f "$(INSTALLED_HEADERS)/ninja_explain.h" \
	"$(INSTALLED_HEADERS)/ninja_explain_files.h" "$(INSTALLED_LIBRARY).a" "$(INSTALLED_LIBRARY).so.1" \
	"$(INSTALLED_LIBRARY).so" "$(INSTALLED_PC)"

# Packs the program and the library for C, which are proved first if they were not, in dist/: an
# archive, Debian packages, their provenance, and checksums. With LOG=FILE the verdicts come
# from a log of the gate; else they are those that `make` and `make c` kept. KEY=FILE is a private key of
# OpenSSH that signs the checksums, and BUILDER=URI names who builds.
dist: $(BUILT) $(GRAPH) $(LIBRARY).so
	@python3 scripts/dist $(if $(LOG),--log "$(LOG)") $(if $(KEY),--key "$(KEY)") \
	$(if $(BUILDER),--builder "$(BUILDER)")

# Packs the Python package with the library for C in dist/.
wheel: $(LIBRARY).so
	@python3 scripts/wheel.py

# Packs twice, plants mistakes that must be refused, and runs the unpacked programs in empty directories;
# with debootstrap and as root, also in a Debian that it makes. LOG=FILE is that of `make dist`.
dist-check: $(BUILT) $(GRAPH) $(LIBRARY).so
	@python3 scripts/dist_check $(if $(LOG),--log "$(LOG)") --jobs $(JOBS) $(CHECKS)

FILE ?= proofs.tar.zst
# Packs in FILE what checks kept in this clone.
save-proofs:
	@python3 scripts/proofs.py save "$(FILE)"

# Unpacks what `make save-proofs FILE=..` packed in another clone, after which `make` proves only what
# differs. CONTRIBUTING.md says whom it trusts then.
load-proofs:
	@python3 scripts/proofs.py load "$(FILE)"

# Removes what was proved and built.
clean:
	rm -rf bin lib dist crates/*/out
