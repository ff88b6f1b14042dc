# Builds, tests and installs. `make help` prints the lines here that start with two hashes.

SHELL := /bin/bash
.SHELLFLAGS := -eu -o pipefail -c
.DEFAULT_GOAL := tool
.DELETE_ON_ERROR:
MAKEFLAGS += --no-builtin-rules --no-print-directory

# These count where they are given, on the command line or in the environment.
ifeq ($(origin CC),default)
CC := gcc
endif
ifeq ($(origin CXX),default)
CXX := g++
endif
CFLAGS ?= -O2
CXXFLAGS ?= -O2
WARNINGS ?= -Wall -Wextra -Werror -pedantic
PREFIX ?= /usr/local
DESTDIR ?=
DAMAGED := 2000
LLVM := llvm

HEADER := include/offload.h
TOOL := target/offload
VERSION := $(shell sed -n 's/^\#define OFFLOAD_VERSION "\([0-9.]*\)".*/\1/p' $(HEADER))
LIBRARY := target/staticlib/liboffload.a
HARNESS := target/staticlib/libharness.a
BENCH_CALLS := target/staticlib/libbench_calls.a
PROGRAM := target/bin/offload_compare
CARGO := cargo --quiet
SECOND := --offline --manifest-path second/Cargo.toml
BENCH := $(CARGO) run --release --offline --manifest-path bench/Cargo.toml --

.PHONY: demo test install uninstall clean help tool library program harness prove tools
.PHONY: selftest calls stack compare second-test tool-test program-test example install-test build-test gate-test damage bench order profile each lookup recover report

## For use
##   make               the tool, and the library that it needs

##   make demo          what the tool does with a real bundle
demo: $(TOOL)
	@examples/demo.sh $(TOOL)

##   make test          the gate: every proof and every test; the last line is the verdict
test:
	@tests/gate.sh

##   make install       header, library, tool, program, manual pages, and what pkg-config and CMake need, below PREFIX (/usr/local) of DESTDIR
install: $(TOOL) $(PROGRAM)
	@PREFIX=$(call quoted,$(PREFIX)) DESTDIR=$(call quoted,$(DESTDIR)) scripts/install.sh install $(VERSION)

##   make uninstall     removes what `make install` put there
uninstall:
	@PREFIX=$(call quoted,$(PREFIX)) DESTDIR=$(call quoted,$(DESTDIR)) scripts/install.sh uninstall $(VERSION)

##   make clean         removes all that was made here
clean:
	rm -rf target second/target bench/target crates/*/out

##   make help          these lines
help:
	@sed -n 's/^##\( \|$$\)//p' Makefile

##
## Parts
##   make tool          target/offload
tool: $(TOOL)

##   make library       target/staticlib/liboffload.a, for C and C++ over include/offload.h
library: $(LIBRARY)

##   make program       target/bin/offload_compare, the proved program that compares two bundles; installed as offload-compare
program: $(PROGRAM)

##   make harness       the reader and the writers as C calls, which the header has not: for the comparison
harness: $(HARNESS)

##   make prove         the proofs alone
prove:
	@scripts/need.sh rt
	@scripts/prove.sh

##   make tools         installs, as root, what the tests need beside the Rattle kit; otherwise says what is missing
tools:
	@scripts/need.sh rt $(firstword $(CC)) $(firstword $(CXX)) cargo cmake pkg-config

##
## Tests, each a part of the gate
##   make calls         header and library, from C99 and from C++
calls: tools target/calls-c target/calls-cpp
	target/calls-c
	target/calls-cpp

##   make stack         the stack that each call takes
stack: target/stack
	target/stack

##   make compare       the library against the second program: the same rules, written a second time
compare: tools $(LIBRARY) $(HARNESS)
	$(CARGO) run --release $(SECOND) --bin compare

##   make selftest      the library compiled with checks, and on an interpreter what reads nothing; `make test` runs it as two compilers build it too
selftest:
	@scripts/need.sh rt
	cmp crates/selftest/stdin samples/bundles/five-fields.bundle
	tests/selftest.sh selftest 1
	tests/selftest.sh selftest_cases 2

##   make second-test   the second program's own tests
second-test: tools
	$(CARGO) test $(SECOND) --lib

##   make tool-test     the tool, used as a person would
tool-test: $(TOOL)
	tests/tool.sh $(TOOL)
	tests/files.sh $(TOOL)

##   make program-test  the proved program: what it prints, byte by byte
program-test: $(PROGRAM)
	tests/program.sh $(PROGRAM)

##   make example       the smallest loader
example: target/loader
	tests/loader.sh target/loader

##   make install-test  the example, built over what `make install` puts in place
install-test: tools $(TOOL) $(PROGRAM)
	tests/install.sh

##   make build-test    this file: what it builds, when, and where
build-test: $(LIBRARY) $(PROGRAM)
	tests/build.sh

##   make gate-test     the gate's verdict, whatever goes wrong
gate-test:
	tests/gate-test.sh

##   make damage        DAMAGED (2000) damaged files, given to the tool and to LLVM's tools: how often each answers, refuses, crashes, hangs
damage: $(TOOL) target/make-damage
	rm -rf target/damage
	mkdir -p target/damage
	target/make-damage $(DAMAGED) target/damage samples/bundles/* samples/refused/* samples/binaries/*
	timeout 1800 tests/damage.sh $(TOOL) target/damage $(LLVM)

##
## Speed
##   make bench         speed beside that of the second program, plain C, memcpy, LLVM's tools and, with llvm-19-dev, LLVM's library
bench: tools $(TOOL) $(BENCH_CALLS)
	$(BENCH) $(TOOL) target/bench | tee target/bench.md

##   make order         the order of two IDs alone, which is timed in the gate too
##   make profile       the calls of the profile beside the general ones, which are timed in the gate too
##   make each          one call for several names beside as many for one
##   make lookup        a lookup in two bundles beside a pick from each
##   make recover       offload binaries in damaged and in hostile files
##   make report        a comparison of two bundles beside two checks, and beside two normal forms
order profile each lookup recover report: tools $(LIBRARY) $(BENCH_CALLS)
	LLVM_CONFIG= $(BENCH) $@

##
## Settings, as in `make tool CC=clang`: CC CXX CPPFLAGS CFLAGS CXXFLAGS LDFLAGS LDLIBS WARNINGS PREFIX DESTDIR

# One word of the shell, whatever it holds.
quoted = '$(subst ','\'',$(1))'

# What a library or a program is made of: the files of its crates, and the folders, which change when a file goes.
sources = crates.txt $(shell find $$(scripts/crates.sh $(1) | sed 's|.*|crates/&/src crates/&/specs crates/&/proofs|') 2>&1 | grep -v '^find:')

$(LIBRARY): CRATE = offload
$(LIBRARY): $(call sources,offload)
$(HARNESS): CRATE = harness_c
$(HARNESS): $(call sources,harness_c)
$(BENCH_CALLS): CRATE = bench_calls
$(BENCH_CALLS): $(call sources,bench_calls)
# A program is compiled later, and its compiler must not turn out to be missing then.
target/staticlib/lib%.a:
	@scripts/need.sh rt $(firstword $(CC))
	@scripts/prove.sh $(CRATE) $@

$(PROGRAM): $(call sources,offload_compare)
	@scripts/need.sh rt
	@scripts/prove.sh offload_compare $@

# What was compiled by another compiler, or with other flags, is compiled again.
FLAGS := $(CC) $(CXX) $(WARNINGS) $(CPPFLAGS) $(CFLAGS) $(CXXFLAGS) $(LDFLAGS) $(LDLIBS)
ifneq ($(file <target/flags),$(FLAGS))
.PHONY: target/flags
endif
target/flags:
	@mkdir -p target
	@printf '%s\n' $(call quoted,$(FLAGS)) >$@

$(TOOL): $(wildcard tool/*.c) $(wildcard tool/*.h)
target/loader: examples/loader.c
target/stack: tests/stack.c
target/calls-c: tests/calls.c
target/calls-cpp: tests/calls.c
$(TOOL) target/loader target/stack target/calls-c target/calls-cpp: $(HEADER) $(LIBRARY) target/flags
target/make-damage: tests/damage.c target/flags

$(TOOL) target/loader target/stack target/make-damage: C99 += -D_POSIX_C_SOURCE=200809L
target/stack: C99 += -pthread
C99 = $(CC) -std=c99 -Iinclude $(WARNINGS) $(CPPFLAGS) $(CFLAGS) $(LDFLAGS)
$(TOOL) target/loader target/stack target/calls-c target/make-damage:
	@scripts/need.sh $(firstword $(CC))
	$(C99) -o $@ $(filter %.c %.a,$^) $(LDLIBS)

target/calls-cpp:
	@scripts/need.sh $(firstword $(CXX))
	$(CXX) -Iinclude $(WARNINGS) $(CPPFLAGS) $(CXXFLAGS) $(LDFLAGS) -o $@ -x c++ $(filter %.c,$^) -x none $(filter %.a,$^) $(LDLIBS)
