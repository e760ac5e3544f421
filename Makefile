PREFIX ?= /usr/local

.PHONY: help try build lib install install-lib check-lib example examples pre-push test bench checks

help:
	@echo 'make try        run the first example from the sources, within three minutes; nothing is proved by it'
	@echo 'make build      prove every crate below the program that is new or changed (from nothing two processor hours), and leave it as ./fjob'
	@echo 'make lib        the library for Fortran, C and Python, left in lib/out (docs/LINK.md); make check-lib tries it'
	@echo 'make install    put ./fjob, and nothing else, into PREFIX/bin ($(PREFIX)/bin)'
	@echo 'make install-lib  put the library into PREFIX/lib and PREFIX/include'
	@echo 'make example    run the deck of examples/first in a folder of its own'
	@echo 'make examples   run every example, alone and with 0, 1, 4 and 16 workers, and compare'
	@echo 'make pre-push   build, examples, worked decks, and the pages against the program and the crates'
	@echo 'make test       the gate, rt ci: every proof, wrong body, test and worked deck'
	@echo 'make checks     what no gate asks for, the cheap checks first; checks/all NAME.. runs some'
	@echo 'make bench      the benchmarks, beside gfortran where it is'

try:
	@tools/try first

build:
	tools/build fjob 4 check
	cp crates/fjob/out/fjob fjob.new
	mv -f fjob.new fjob

lib:
	tools/build_lib

install: build
	install -D fjob $(DESTDIR)$(PREFIX)/bin/fjob

install-lib: lib
	DESTDIR='$(DESTDIR)' tools/build_lib install '$(PREFIX)'

check-lib: lib
	checks/link/run

example: build
	examples/run first

examples: build
	examples/run

pre-push: examples
	checks/all definitions decks worked

test:
	rt ci

bench: build
	tools/build fj_bench 1
	bench/run

checks: build
	checks/all
