# The front door, for GNU make: `make` says what there is. What proves needs the kit, whose command is `rt`.
PREFIX = /usr/local
release = dist/yektrod-$(shell cat VERSION)-x86_64-linux
archive = crates/yektrod/out/libyektrod.a
library = clients/rust/target/yektrod

.PHONY: help try prove check-attr test gate dist dist-aarch64 install clean
help:
	@echo 'make try            plays a script by the program, unproved: a minute'
	@echo 'make prove          proves all crates, and builds the library for C: up to an hour the first time'
	@echo 'make check-attr     builds clients/rust/target/release/check-attr over the library, which is proved first if it is not there'
	@echo 'make test           checks what needs no proof: a minute'
	@echo 'make gate           proves and tests everything from nothing: an hour or more'
	@echo 'make dist           packs a release of what the gate proved, in dist/'
	@echo 'make dist-aarch64   packs the library for aarch64'
	@echo 'make install        copies the release to DESTDIR and PREFIX ($(PREFIX))'
	@echo 'make clean          deletes what make has built, and keeps proofs'

try:
	cd crates/check_attr_cli && rt try < stdin

prove:
	rt all check
	cd crates/yektrod && rt lib

check-attr: $(library)/lib/libyektrod.a
	cd clients/rust && CARGO_TARGET_DIR=target YEKTROD_LIB_DIR=$(CURDIR)/$(library)/lib \
	    cargo build --quiet --release --offline --locked -p check-attr

# `rt` reads no tree that has a link in it, and check-attr needs none.
$(library)/lib/libyektrod.a: $(archive)
	tools/c-library $(library)
	rm $(library)/lib/libyektrod.so

$(archive):
	cd crates/yektrod && rt lib

test:
	tests/version.sh
	tests/layout.sh
	tests/reach.py
	tests/mutants.py
	tests/ghost_use.py
	tests/hostile_rows.py
	tests/made_rows.py
	tests/worked_examples.py

gate:
	.ci/run

dist:
	tools/dist

dist-aarch64:
	tools/release/aarch64

install: $(release).tar.gz
	room=$$(mktemp -d) && trap 'rm -rf "$$room"' EXIT && tar -x -z -C "$$room" -f $< && \
	    $(MAKE) -s -C "$$room"/* install PREFIX='$(PREFIX)' DESTDIR='$(DESTDIR)'

$(release).tar.gz:
	tools/dist

clean:
	rm -rf dist clients/rust/target
