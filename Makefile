# The commands of README.md: make, make test, make bench, make install PREFIX=... [DESTDIR=...], make uninstall (with the same), make clean.
# What is made stands in build/: include/ and lib/ for a driver, bin/ for people, tests/ for the rest. `rt` works in crates/*/out, which `rt ci` sets aside;
# build/ holds copies of what is to stay.
SHELL := /bin/bash
.SHELLFLAGS := -eu -o pipefail -c
.DELETE_ON_ERROR:
# Two runs of rt at a time would wait for each other in the crates that both stand on.
.NOTPARALLEL:

PREFIX ?= /usr/local
DESTDIR ?=

# The archive is x86-64. Elsewhere what links it is cross-compiled and run by an emulator, under which there are no sanitizers.
ifeq ($(shell uname -m),x86_64)
CC := gcc
CXX := g++
AR := ar
NM := nm
RUN :=
SANITIZED := -sanitized
else
CC := x86_64-linux-gnu-gcc -static
# not -static: the cross libm.a is a linker script whose paths Debian leaves as they are on x86-64
CXX := x86_64-linux-gnu-g++
AR := x86_64-linux-gnu-ar
NM := x86_64-linux-gnu-nm
RUN := qemu-x86_64 -L /usr/x86_64-linux-gnu
SANITIZED :=
endif
WARNINGS := -Wall -Wextra -pedantic -Werror
COMPILE_C = $(CC) -std=c11 $(WARNINGS) -Iinclude
COMPILE_CXX = $(CXX) -std=c++17 $(WARNINGS) -Iinclude
SANITIZE := -O1 -g -fsanitize=address,undefined -fno-sanitize-recover=all
HEADER := include/dedakhumi.h
ARCHIVE := build/lib/libdedakhumi.a
# The header says it; 0 as long as lengths and layouts may change.
VERSION := $(shell sed -n 's/^.define DEDAKHUMI_VERSION "\(.*\)"$$/\1/p' $(HEADER))
# for the scripts of package/, tests/ and bench/
export CC CXX NM RUN VERSION HEADER ARCHIVE
CRATES := crates.txt $(shell find crates -path 'crates/*/out' -prune -o -type f -print)

.PHONY: all
all: $(ARCHIVE) build/include/dedakhumi.h build/bin/player build/bin/totals build/bin/try build/bin/night

# rt's own archive, kept apart so that a word changed in the header proves nothing anew.
PROVED := build/tests/proved.a
$(PROVED): $(CRATES)
	@tests/need make
	@echo "make: proves the library, crate by crate from the ground up, with lines for each; then the player and totals. Some minutes on four cores."
	cd crates/dedakhumi_c && rt lib
	@mkdir -p $(@D)
	cp crates/dedakhumi_c/out/libdedakhumi_c.a $@

$(ARCHIVE): $(PROVED) package/interface.c $(HEADER)
	@mkdir -p $(@D)
	$(COMPILE_C) -O2 -fPIC -c package/interface.c -o build/tests/interface.o
	cp $(PROVED) $@
	$(AR) rs $@ build/tests/interface.o

# rt builds a program only to run it: without input, and totals on a log that is there. On another machine than x86-64 the run fails, and what was built stays.
RUN_ON := $(if $(RUN),|| true)
build/bin/player build/bin/totals: build/bin/%: $(CRATES)
	rm -f crates/$*/out/$*
	cd crates/$* && rt run $(if $(filter totals,$*),-- data/a.log) </dev/null >/dev/null $(RUN_ON)
	@mkdir -p $(@D)
	cp crates/$*/out/$* $@

build/include/dedakhumi.h: $(HEADER)
	@mkdir -p $(@D)
	cp $< $@

# By the environment and as they were given: a path may have any character, of make's and of the shell's too.
export INSTALL_PREFIX := $(value PREFIX)
export INSTALL_DESTDIR := $(value DESTDIR)
.PHONY: install uninstall
install: $(ARCHIVE)
	package/install
uninstall:
	package/uninstall

.PHONY: bench
bench: build/tests/steady build/tests/steady-second build/tests/largest
	bench/run

.PHONY: clean
clean:
	rm -rf build

# A pattern that matches no file stays as it is, and make says that it has no rule for it: a missing source is an error.
# $(call program,FOLDER,NAME,SOURCES,HEADERS,FLAGS) makes build/FOLDER/NAME and build/tests/NAME-sanitized.
define program
build/$(1)/$(2): $(3) $(ARCHIVE) $(HEADER) $(wildcard $(4))
	@mkdir -p $$(@D)
	$$(COMPILE_C) -O2 $(5) $$(filter %.c,$$^) $(ARCHIVE) -o $$@
build/tests/$(2)-sanitized: $(3) $(ARCHIVE) $(HEADER) $(wildcard $(4))
	@mkdir -p $$(@D)
	$$(COMPILE_C) $(SANITIZE) $(5) $$(filter %.c,$$^) $(ARCHIVE) -o $$@
endef
$(eval $(call program,bin,night,driver/port/*.c driver/night/*.c text/*.c,driver/*/*.h text/*.h,-Idriver/port -Itext))
$(eval $(call program,bin,try,try/*.c text/*.c,try/*.h text/*.h,-Itext))
$(eval $(call program,tests,port,driver/port/*.c tests/port/*.c,driver/port/*.h tests/port/*.h,-Idriver/port -Itests))
$(eval $(call program,tests,header,tests/header/helpers.c,,))
$(eval $(call program,tests,cost,tests/cost/*.c,tests/cost/*.h tests/compare/random.h,))
$(eval $(call program,tests,compare,tests/compare/*.c second/*.c,tests/compare/*.h second/*.h,-Isecond))
$(eval $(call program,tests,pages,tests/pages/*.c,tests/pages/*.h second/layout.h,-Isecond))
$(eval $(call program,tests,outside,tests/outside/*.c text/*.c,tests/outside/*.h text/*.h,-Itext))
$(eval $(call program,tests,replay,tests/cases/*.c,tests/cases/*.h,))
$(eval $(call program,tests,waits,tests/waits/*.c,tests/waits/*.h,))
$(eval $(call program,tests,waits-second,tests/waits/*.c second/*.c,tests/waits/*.h second/*.h,-Isecond -DSECOND))
$(eval $(call program,tests,totals-twin,tests/totals/twin.c second/*.c,second/*.h,-Isecond))
$(eval $(call program,tests,totals-log,tests/totals/write.c second/*.c,tests/compare/random.h second/*.h,-Isecond))
$(eval $(call program,tests,steady,bench/steady.c,second/*.h,-Isecond))
$(eval $(call program,tests,steady-second,bench/steady.c second/*.c,second/*.h,-Isecond -DSECOND))
$(eval $(call program,tests,largest,bench/largest.c,,))

# One after the other, the quick ones first, and `rt ci` last (tests/gate), whose last line is the last: N passed, 0 failed.
TESTS := need header crates names promises opened clauses install cost port driver outside try player totals pages cases waits usage compare
.PHONY: test
test:
	@for test in $(TESTS); do \
		echo "test: $$test"; \
		$(MAKE) --no-print-directory "test-$$test" || { echo "make test: stopped, since the test '$$test' failed" >&2; exit 1; }; \
	done
	@tests/gate

.PHONY: $(TESTS:%=test-%)
test-need:
	tests/need test

# Alone in both languages, then the layouts, then what its functions make and read.
test-header: build/tests/header build/tests/header-c++
	$(COMPILE_C) -fsyntax-only -x c $(HEADER)
	$(COMPILE_CXX) -fsyntax-only -x c++ $(HEADER)
	$(COMPILE_C) -fsyntax-only tests/header/layout.c
	$(COMPILE_CXX) -fsyntax-only -x c++ tests/header/layout.c
	$(RUN) build/tests/header
	$(RUN) build/tests/header-c++

build/tests/header-c++: tests/header/helpers.c $(ARCHIVE) $(HEADER)
	@mkdir -p $(@D)
	$(COMPILE_CXX) -x c++ $< -x none $(ARCHIVE) -o $@

test-crates: tests/crates
	tests/crates

test-names: tests/names
	tests/names

test-install: $(ARCHIVE) build/include/dedakhumi.h
	tests/install/run

# What a driver's author copies, alone and with a driver around it that is not the night's.
test-port: build/tests/port $(SANITIZED:%=build/tests/port%) tests/port/alone
	tests/port/alone
	$(RUN) build/tests/port
	$(SANITIZED:%=build/tests/port%)
	$(call faults,port)

test-driver: build/bin/night $(SANITIZED:%=build/tests/night%)
	tests/driver $(filter build/%,$^)

# A script named faults tries its test on faulty versions; the emulator need not repeat that.
faults = $(if $(RUN),,$(wildcard tests/$(1)/faults))

# FACTOR makes the comparison that many times as long.
FACTOR ?= 1
test-compare: build/tests/compare $(SANITIZED:%=build/tests/compare%) tests/compare/faults
	$(RUN) build/tests/compare $(FACTOR)
	$(SANITIZED:%=build/tests/compare% 0.2)
	$(if $(call faults,compare),tests/compare/faults $(ARCHIVE))

test-pages: build/tests/pages $(SANITIZED:%=build/tests/pages%)
	$(RUN) build/tests/pages
	$(SANITIZED:%=build/tests/pages%)
	$(call faults,pages)

test-outside: build/tests/outside $(SANITIZED:%=build/tests/outside%) tests/outside/*.txt
	$(RUN) build/tests/outside $(filter %.txt,$^)
	$(SANITIZED:%=build/tests/outside% $(filter %.txt,$^))
	$(call faults,outside)

test-player: build/bin/player tests/player
	tests/player build/bin/player

# By hand, and against a twin over the second implementation, on logs that are written for it.
test-totals: build/bin/totals build/tests/totals-twin build/tests/totals-log tests/totals/run
	tests/totals/run $(filter build/%,$^)
	$(call faults,totals)

# Each program of build/tests, called wrongly.
test-usage: $(addprefix build/tests/,compare cost header largest outside pages port replay steady totals-log totals-twin waits) tests/usage
	tests/usage

test-try: build/bin/try $(SANITIZED:%=build/tests/try%) tests/try/run
	tests/try/run $(filter build/%,$^)

# The cases over the archive, and what the program that plays them does with input that they don't have.
test-cases: build/tests/replay $(SANITIZED:%=build/tests/replay%)
	@for replay in $(abspath $^); do tests/cases/run $(RUN) "$$replay"; tests/cases/try-frames $(RUN) "$$replay"; done

# The longest waits, over the archive and over the second implementation, and the page that quotes them.
test-waits: build/tests/waits build/tests/waits-second $(SANITIZED:%=build/tests/waits%) $(SANITIZED:%=build/tests/waits-second%) tests/waits/page
	$(RUN) build/tests/waits
	$(RUN) build/tests/waits-second
	$(SANITIZED:%=build/tests/waits%)
	$(SANITIZED:%=build/tests/waits-second%)
	tests/waits/page $(RUN) build/tests/waits
	$(call faults,waits)

# Not sanitized: a sanitizer has its own way with stacks.
test-cost: build/tests/cost
	$(RUN) build/tests/cost

test-promises: tests/promises
	tests/promises

test-opened: tests/opened
	tests/opened

test-clauses: tests/clauses
	tests/clauses
