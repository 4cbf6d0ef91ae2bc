# The toolchain's command `rt` must be on PATH.

PREFIX ?= /usr/local
EXAMPLE ?= first
MANUALS = $(PREFIX)/share/man/man1
COMPLETIONS = $(PREFIX)/share/bash-completion/completions
PROGRAM = crates/teseo/out/teseo
FOLD = examples/handoff/fold
ARCHIVE = teseo-$(shell git rev-parse --short HEAD).tar.gz

.PHONY: help demo quick build install uninstall package test wrong stress bench dist clean

help:
	@echo 'make demo       runs an example, checked and not proved, in a minute: EXAMPLE=first'
	@echo '                or tour, transfers, fraud, routes, network, conflict, kernels, desk'
	@echo 'make quick      runs all tests, the examples and the guide, checked and not proved, in 3 minutes'
	@echo 'make build      proves and builds the program: half an hour or so the first time on four cores'
	@echo 'make install    builds, and puts teseo, its manual page, its completion and the tools below PREFIX ($(PREFIX))'
	@echo 'make uninstall  removes them from there'
	@echo 'make test       the gate: proves every crate from nothing, and runs all tests (an hour)'
	@echo 'make wrong      tries the wrong bodies that the gate leaves out (half an hour)'
	@echo 'make stress     builds, and tries failing calls, damaged files, killed runs and random runs (ten minutes at most)'
	@echo 'make bench      builds, and prints a table of times and of memory (some minutes)'
	@echo 'make package    builds, and packs the program with all that make install installs into a .tar.gz'
	@echo 'make dist       packs the last commit into teseo-COMMIT.tar.gz'
	@echo 'make clean      removes all that was built'

demo:
	@examples/demo.sh $(EXAMPLE)

quick:
	.ci/quick

build:
	@echo 'Proving and building takes half an hour or so the first time on four quiet cores, and seconds where nothing changed.'
	@.ci/build

install: build
	install -d $(DESTDIR)$(PREFIX)/bin $(DESTDIR)$(MANUALS) $(DESTDIR)$(COMPLETIONS)
	install -m 755 $(PROGRAM) $(DESTDIR)$(PREFIX)/bin/teseo
	install -m 755 $(wildcard tools/teseo-*) $(DESTDIR)$(PREFIX)/bin
	@if $(MAKE) -s -C $(FOLD); then install -m 755 $(FOLD)/out/fold $(DESTDIR)$(PREFIX)/bin/teseo-fold; \
	else echo 'There is no teseo-fold without a C++17 compiler.'; fi
	install -m 644 docs/teseo.1 $(DESTDIR)$(MANUALS)/teseo.1
	install -m 644 docs/teseo.bash $(DESTDIR)$(COMPLETIONS)/teseo

uninstall:
	rm -f $(addprefix $(DESTDIR)$(PREFIX)/bin/,teseo-fold $(notdir $(wildcard tools/teseo-*)))
	rm -f $(DESTDIR)$(PREFIX)/bin/teseo $(DESTDIR)$(MANUALS)/teseo.1 $(DESTDIR)$(COMPLETIONS)/teseo

package: build
	tools/package.sh

test:
	.ci/run

wrong:
	.ci/wrong

stress: build
	stress/run.sh

bench:
	bench/run.sh

dist:
	git archive --prefix=$(ARCHIVE:.tar.gz=)/ -o $(ARCHIVE) HEAD
	@echo $(ARCHIVE)

clean:
	rm -rf crates/*/out examples/handoff/*/out teseo-*.tar.gz
