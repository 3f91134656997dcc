# rt builds for x86-64. On another machine the tests too are built for x86-64 and run in an
# emulator, and what is timed or watched by valgrind is built for that machine.
ifeq ($(shell uname -m),x86_64)
RUSTC := rustc
CC := gcc
EMULATOR :=
WATCHED := build/abuse
MARKED := build/marked
TIMED := build/bench
CHECKER := crates/checker/out/checker
SECOND := build/second
export BINUTILS :=
else
RUSTC := /usr/bin/rustc --target x86_64-unknown-linux-gnu -C linker=x86_64-linux-gnu-gcc
CC := x86_64-linux-gnu-gcc
EMULATOR := /usr/bin/qemu-x86_64
WATCHED := build/aarch64/abuse
MARKED := build/aarch64/marked
TIMED := build/aarch64/bench
CHECKER := build/aarch64/checker
SECOND := build/aarch64/second
export BINUTILS := x86_64-linux-gnu-
endif

# One unit: how fast the second program is must not hang on how the compiler cuts it up. rustc looks in
# MAKEFLAGS for other processes to share the cores with.
RUST = MAKEFLAGS= $(RUSTC) --edition 2021 -C opt-level=3 -C codegen-units=1
LIBRARY = -L native=$(@D) -l static=kkurimyeot
C99 = $(CC) -std=c99 -pedantic -Wall -Wextra -Werror

# The processor that the library is written for, the place where `make install` puts it, and the release that its
# pkg-config file names.
FOR ?= x86-64
export FOR
PREFIX ?= /usr/local
RELEASE = 0.1.0

PROCESSORS := $(shell tools/processor)

# Those whose instructions an emulator can follow.
TRACED := $(filter-out wasm32,$(PROCESSORS))

# The longest first.
TESTS = compare checker abuse $(PROCESSORS:%=for-%) unit refused loader $(TRACED:%=traced-%) watched marked variable peers files calls example first install layout

.PHONY: help run example check test proofs wrong tests $(TESTS:%=test-%) times bench scan known archive install board setup clean always
.SECONDARY:

# One at a time, but for the tests.
ifndef TWO
.NOTPARALLEL:
endif

help: ## print this list
	@sed -n 's/^\([a-z]*\):.*## /make \1\t/p' Makefile

run: ## prove the programs and run them: the vectors, the checker on a sample file, and the comparison of two
	tools/program vectors
	tools/program checker
	tools/program compare
	tools/run vectors
	tools/run checker < samples/cards.txt
	tools/run compare samples/before.txt samples/after.txt

example: setup build/example ## print the worked example of docs/FORMAT.md
	@$(EMULATOR) build/example

# How long each line took is written to build/times.
check test proofs wrong tests: SHELL := tests/timed

define LOOK
"$$(dirname "$$(rt doc)")/bin/rattle" fmt --check $$(find crates/*/src crates/*/specs crates/*/proofs -name '*.rt' -o -name '*.antt')
tests/refused untried
[ ! -e ../shared/tools/contracts ] || ../shared/tools/contracts | grep -x 'contracts: nothing to look at'
endef

check: times setup ## before a commit: prove what changed and what stands on it, and run the tests
	$(LOOK)
	rt all check
	@$(MAKE) -s -j2 -O TWO=1 tests

# tests/gate runs `rt ci`. What comes after that prints nothing where all is right, so that rt's last line is the last
# of all. What `rt ci` proves it keeps for itself, but for the programs that it built: so `rt all check` proves once more
# what the archive and the wrong programs stand on.
test: times setup ## the gate: prove everything from nothing, try every wrong program, and run the tests
	$(LOOK)
	tests/gate
	@tests/parts
	@$(MAKE) -s QUIET=1 proofs
	@$(MAKE) -s QUIET=1 wrong
	@$(MAKE) -s -j2 QUIET=1 TWO=1 PROVED=1 tests

proofs:
	rt all check

wrong:
	tests/refused

times: SHELL := /bin/sh
times:
	@rm -f build/times build/said

tests: $(TESTS:%=test-%)

test-unit: build/unit
	$(EMULATOR) build/unit

# The calls beside the second program's. The program `compare` is tried by test-peers and test-files.
test-compare: build/compare
	$(EMULATOR) build/compare

test-abuse: build/abuse
	$(EMULATOR) build/abuse 1000000

test-watched: $(WATCHED)
	valgrind -q --error-exitcode=1 $(WATCHED) 1000 exact

# Nothing secret decides a branch or an address.
test-marked: $(MARKED) build/cases
	tests/marked $(MARKED)

$(TRACED:%=test-traced-%): test-traced-%: build/%/libkkurimyeot.a build/cases build/plugin.so
	tests/traced $*

test-variable: $(PROCESSORS:%=build/%/libkkurimyeot.a)
	bench/variable

test-checker: build/checker
	tools/program checker
	$(EMULATOR) build/checker try tools/run checker

# Two files compared: the reports beside those of other programs, and the program on all kinds of files.
test-peers test-files: test-%: build/checker
	tools/program compare
	tests/$* "$(EMULATOR) build/checker" tools/run compare

test-calls: build/calls
	$(EMULATOR) build/calls

test-example: build/example
	$(EMULATOR) build/example | tests/shown docs/FORMAT.md
	tests/shown docs/FORMAT.md listing < samples/cards.listing
	tests/shown docs/FORMAT.md report < samples/changes.report

test-first: build/first
	$(EMULATOR) build/first | grep -x 'touch 27.41'

test-loader: build/loader
	tests/loader $(EMULATOR) build/loader

test-refused:
	tests/found_out

# It calls rt, and make, so the archives are there before it.
test-install: $(PROCESSORS:%=build/%/libkkurimyeot.a)
	tests/install "$(C99)" "$(EMULATOR)"

# A name that is not known is refused before anything is proved or written.
known:
	@tools/processor "$$FOR" >/dev/null

$(PROCESSORS:%=test-for-%): test-for-%: build/%/libkkurimyeot.a build/cases
	tests/processor $*

test-layout: build/libkkurimyeot.a
	tests/layout build/kkurimyeot.ll
	tests/depends build/kkurimyeot.ll

bench: setup build/bench $(TIMED) build/checker $(SECOND) build/used build/cases $(PROCESSORS:%=build/%/libkkurimyeot.a) ## measure the library: beside the second program, and on each processor
	$(if $(EMULATOR),bench/instructions $(EMULATOR) build/bench)
	$(TIMED)
	bench/sizes build/libkkurimyeot.a
	$(if $(EMULATOR),bench/native $(CHECKER),tools/program checker)
	bench/listing "$(EMULATOR) build/checker lines" build/used "$(CHECKER)" $(SECOND)
	bench/processors
	bench/variable

scan: setup build/checker $(SECOND) build/used ## time the checker with a scan of the list of serials beside the one that halves
	bench/scan "$(EMULATOR) build/checker lines" build/used $(SECOND)

archive: known build/$(FOR)/libkkurimyeot.a ## prove the library and write its archive FOR=NAME, a processor of tools/processors
	@for file in build/"$$FOR"/*kkurimyeot.*; do echo "for $$FOR: $$file"; done

install: known build/$(FOR)/libkkurimyeot.a ## install library, header and, for x86-64, programs FOR=NAME under PREFIX, by default /usr/local
	[ "$$FOR" != x86-64 ] || { tools/program checker && tools/program compare; }
	tools/install "$(PREFIX)" "$(DESTDIR)" $(RELEASE) "$$FOR"

board: known build/$(FOR)/libkkurimyeot.a ## run examples/loader.c FOR=NAME, a Cortex-M on an emulated board
	tools/firmware "$$FOR" build/"$$FOR"/loader examples/loader.c
	sed -n '/^01[0-9a-f]*$$/p' docs/FORMAT.md | \
	    tools/board "$$FOR" build/"$$FOR"/loader 84be85ce9804e94b ec2802d4e0a488e9

setup: ## install what the tests need and this machine lacks
	tools/setup

clean: ## remove everything that was built
	rm -rf build crates/*/out

# rt knows what has changed. All below is built anew on the archive that it writes, and on its module.
build/libkkurimyeot.a: always
	tools/module build/kkurimyeot.ll kkurimyeot
	cp crates/kkurimyeot/out/libkkurimyeot.a $@

build/%/libkkurimyeot.a: build/libkkurimyeot.a
	tools/archive $*

# For this machine, where it is not x86-64.
build/aarch64/%: RUSTC := rustc

%/libsecond.rlib: %/libkkurimyeot.a
	$(RUST) --crate-type rlib --crate-name second $(LIBRARY) tests/second/lib.rs -o $@

%/bench: %/libsecond.rlib
	RUSTC_VERSION="$$(MAKEFLAGS= $(RUSTC) --version)" $(RUST) --extern second=$< bench/bench.rs -o $@

build/compare: build/libsecond.rlib
	$(RUST) --extern second=$< tests/compare/main.rs -o $@

%/abuse: %/libsecond.rlib
	$(RUST) --extern second=$< tests/abuse/main.rs -o $@

# Cases for the boards, and how many they are.
build/cases: build/abuse
	rm -rf $@
	$(EMULATOR) build/abuse 6000 cases $@ > $@.said
	sed -n 's/^abuse: \([0-9]*\) cases in .*/\1/p' $@.said > $@.count

build/checker: build/libsecond.rlib
	$(RUST) --extern second=$< tests/checker/main.rs -o $@

%/second: %/libsecond.rlib
	$(RUST) --extern second=$< tests/checker/second.rs -o $@

build/unit: build/libkkurimyeot.a
	$(RUST) --crate-name second --test $(LIBRARY) tests/second/lib.rs -o $@

build/used: bench/used.c
	mkdir -p $(@D)
	gcc -std=gnu99 -pedantic -Wall -Wextra -Werror -O2 $< -o $@

# For the machine at hand, and its valgrind.
%/marked: %/libkkurimyeot.a
	gcc -std=gnu99 -Wall -Wextra -Werror -O2 -I include -I tests/board tests/secrets/marked.c $< -o $@

build/plugin.so: tests/secrets/plugin.c
	mkdir -p $(@D)
	gcc -std=gnu99 -Wall -Wextra -Werror -O2 -fPIC -shared -fvisibility=hidden $< -o $@

build/calls build/example: build/libkkurimyeot.a
	$(C99) -I include tests/$(@F).c $< -o $@

build/loader: build/libkkurimyeot.a
	$(C99) -I include examples/loader.c $< -o $@

# The example that README.md shows.
build/first: build/libkkurimyeot.a
	sed -n '/^```c$$/,/^```$$/{//!p}' README.md > $@.c
	$(C99) -I include $@.c $< -o $@
