# What each target does, how long it takes and its variables: make help, which prints the lines that start with ##.
MAKEFLAGS += --no-print-directory
FILE ?= README.md
TABLES ?= crates/replay/data/tables
RECORDING ?= crates/replay/data/recording
SETTINGS ?= crates/survey/data/settings
RECORDINGS ?= $(RECORDING)
SEED ?= 1
CALLS ?= 1000000
PREFIX ?= /usr/local
DESTDIR ?=

.PHONY: lib demo show replay survey install dist test bench soak memcheck clean help

## make            proves the core, writes the library to target/      seventeen minutes of one processor once, then what changed
lib: target/libhaskumye.a target/libhaskumye.so

target/libhaskumye.a: crates.txt scripts/library $(shell find crates -name out -prune -o -name '*.rt' -print -o -name '*.antt' -print)
	@scripts/library

target/libhaskumye.so: target/libhaskumye.a include/haskumye.h scripts/shared
	@scripts/shared

## make demo       the story of a receipt, with the library            a second
demo:
	@scripts/demo

## make show       packets and a file's digest, by proved programs     some minutes once; FILE=README.md
show:
	@scripts/show "$(FILE)"

## make replay     the lines of a recording, by a proved program       a quarter of an hour once; TABLES= and RECORDING=, else the demo's
replay:
	@scripts/replay "$(TABLES)" "$(RECORDING)"

## make survey     a site's recordings by port and by reason, the same    a quarter of an hour once; SETTINGS= and RECORDINGS=, else the demo's
survey:
	@scripts/survey "$(SETTINGS)" $(RECORDINGS)

## make install    header, library, Python module, the desk            a second; PREFIX=/usr/local, DESTDIR= for a package
install: lib
	@scripts/install "$(DESTDIR)" "$(PREFIX)"

## make dist       the same in one archive, for boxes without the kit  a second
dist: lib
	@scripts/dist

## make test       the gate: proves what it has not yet, then tests  twenty-five minutes on four processors
test:
	@scripts/test

## make bench      the speed beside plain C and Rust                   two minutes
bench:
	@scripts/bench

## make soak       the core beside the independent relay               a minute; SEED=1, CALLS=1000000
soak:
	@scripts/soak "$(SEED)" "$(CALLS)"

## make memcheck   the library under valgrind                          a minute
memcheck:
	@scripts/memcheck

## make clean      removes target/, and all that is proved             a second
clean:
	@rm -rf target crates/*/out

## make help       this list
help:
	@sed -n 's/^## //p' Makefile
