# Builds and installs what C and Rust programs link.
#
#   make                        the archive, proved
#   make install PREFIX=...     headers, archive, pkg-config file, CMake package, the programs, man pages and documents
#   make uninstall PREFIX=...   takes them away again
#   make shared                 target/librimonakh.so, for those who load it (install lays it down where it was made)
#   make tool                   the program rimonakh, by cargo (install lays it down where it was made)
#   make day, fault, status     the examples in C
#   make check                  what .ci/link tries of the archive: C, C++, installing, Rust

PREFIX ?= /usr/local
VERSION := $(shell sed -n 's/^\#define RIMONAKH_VERSION_[A-Z]* //p' include/rimonakh.h | paste -sd.)
# what a program is bound to: before 1.0.0 the minor number is what breaks, as in packaging/rimonakh-config-version.cmake
NUMBERS := $(subst ., ,$(VERSION))
SERIES := $(if $(filter 0,$(firstword $(NUMBERS))),0.$(word 2,$(NUMBERS)),$(firstword $(NUMBERS)))
DOCS = docs/USING.md docs/RECORDING.md docs/ORDER.md docs/PROOF.md CHANGELOG.md examples/day.c examples/fault.c examples/status.c
ARCHIVE = target/librimonakh.a
PARTS = c_headers c_api
SHARED = target/librimonakh.so
TOOL = target/cargo/release/rimonakh
PROGRAMS = objref snapshot replay
BINARIES = $(PROGRAMS:%=target/bin/%)
BUILT = $(foreach program,$(PROGRAMS),crates/$(program)/out/$(program))
SOURCES = crates.txt $(shell find crates -name out -prune -o -path '*/src/*.rt' -print -o -path '*/specs/*.antt' -print -o -path '*/proofs/*.antt' -print)
STRICT = -std=c11 -Wall -Wextra -Wpedantic -Wconversion -Werror -Iinclude
TO = $(DESTDIR)$(PREFIX)
KIT = @command -v rt >/dev/null || { echo 'make: the Rattle kit is not on the PATH (rt): it proves and builds the library'; exit 1; }

# one rt at a time: a second waits for the first in each crate that both use
.NOTPARALLEL:
.SECONDEXPANSION:
.DELETE_ON_ERROR:

.PHONY: all install uninstall shared tool check day fault status

all: $(ARCHIVE)

$(ARCHIVE): $(SOURCES)
	$(KIT)
	rm -rf target/parts && mkdir -p target/parts
	for part in $(PARTS); do (cd crates/$$part && rt lib) && ar x --output target/parts crates/$$part/out/lib$$part.a || exit 1; done
	rm -f $@ && ar rcsD $@ $(PARTS:%=target/parts/%.o)

# rt run proves and builds what has changed, and runs it: on its input, where it ends with 0. What the gate has just built serves as it is
$(BUILT): $(SOURCES)
	$(KIT)
	cd crates/$(@F) && rt run <stdin >/dev/null
	touch $@

$(BINARIES): crates/$$(@F)/out/$$(@F)
	install -D $< $@

shared: $(SHARED)

$(SHARED): $(ARCHIVE)
	$(CC) -shared -Wl,-soname,librimonakh.so.$(SERIES) -Wl,--whole-archive $(ARCHIVE) -Wl,--no-whole-archive -o $@

tool: $(ARCHIVE)
	cd rust && CARGO_TARGET_DIR=$(CURDIR)/target/cargo cargo build --release --offline --locked --package rimonakh-tool

install: $(ARCHIVE) $(BINARIES)
	install -d $(TO)/include $(TO)/lib/pkgconfig $(TO)/lib/cmake/rimonakh $(TO)/bin $(TO)/share/man/man1 $(TO)/share/man/man3 \
	    $(TO)/share/doc/rimonakh
	install -m 644 include/rimonakh.h include/rimonakh_more.h $(TO)/include
	install -m 644 $(ARCHIVE) $(TO)/lib/librimonakh.a
	sed -e 's|@PREFIX@|$(PREFIX)|' -e 's|@VERSION@|$(VERSION)|' packaging/rimonakh.pc >$(TO)/lib/pkgconfig/rimonakh.pc
	install -m 644 packaging/rimonakh-config.cmake $(TO)/lib/cmake/rimonakh
	sed 's|@VERSION@|$(VERSION)|' packaging/rimonakh-config-version.cmake >$(TO)/lib/cmake/rimonakh/rimonakh-config-version.cmake
	for program in $(PROGRAMS); do \
	    install -m 755 target/bin/$$program $(TO)/bin/rimonakh-$$program && \
	    sed 's|@VERSION@|$(VERSION)|' packaging/rimonakh-$$program.1 >$(TO)/share/man/man1/rimonakh-$$program.1 || exit 1; done
	sed 's|@VERSION@|$(VERSION)|' packaging/rimonakh.3 >$(TO)/share/man/man3/rimonakh.3
	install -m 644 $(DOCS) $(TO)/share/doc/rimonakh
	if [ -e $(SHARED) ]; then \
	    install -m 755 $(SHARED) $(TO)/lib/librimonakh.so.$(VERSION) && \
	    ln -sf librimonakh.so.$(VERSION) $(TO)/lib/librimonakh.so.$(SERIES) && \
	    ln -sf librimonakh.so.$(SERIES) $(TO)/lib/librimonakh.so; fi
	if [ -e $(TOOL) ]; then \
	    install -m 755 $(TOOL) $(TO)/bin/rimonakh && \
	    sed 's|@VERSION@|$(VERSION)|' packaging/rimonakh.1 >$(TO)/share/man/man1/rimonakh.1; fi

uninstall:
	rm -f $(TO)/include/rimonakh.h $(TO)/include/rimonakh_more.h $(TO)/lib/librimonakh.a $(TO)/lib/librimonakh.so* \
	    $(TO)/lib/pkgconfig/rimonakh.pc $(TO)/share/man/man3/rimonakh.3 \
	    $(PROGRAMS:%=$(TO)/bin/rimonakh-%) $(PROGRAMS:%=$(TO)/share/man/man1/rimonakh-%.1) \
	    $(TO)/bin/rimonakh $(TO)/share/man/man1/rimonakh.1
	rm -rf $(TO)/lib/cmake/rimonakh $(TO)/share/doc/rimonakh

check: $(BINARIES)
	sh .ci/link

day fault status: $(ARCHIVE)
	$(CC) $(STRICT) examples/$@.c $(ARCHIVE) -o target/$@
	target/$@
