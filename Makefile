# make run    builds the program and vets a sample paper of patterns
# make run-latin1  the same with a sample of French and Spanish patterns, which is converted from UTF-8 to ISO 8859-1
# make show PATTERN='..' ANSWER='..'  vets a pattern with the example client in C and marks an answer, which may be left out
# make test   proves every crate, tries every must-fail edit, runs every test; the last line is 'N passed, M failed'
# make bench  prints how the library's speed compares with unverified programs; PART=monday one part of it, several in quotes, of
#   marking, vetting, reading, wrong, growth, short and monday, the last of which takes some fifteen minutes
# make soak   random tests, N patterns from a SEED
# make install PREFIX=..  the header, the library, the program and a pkg-config file; make uninstall PREFIX=.. removes them
# make fmt    lays the sources out
RT ?= rt
PREFIX ?= /usr/local
N ?= 200000
SEED ?= $(shell date +%s)

prefix = $(PREFIX)
includedir = $(prefix)/include
libdir = $(prefix)/lib
bindir = $(prefix)/bin

LIBRARY = target/staticlib/libmarking.a
PROGRAM = target/bin/vet
CLIENT = target/c/client
# what is proved: all files and folders in the crates, so that a file that is gone is noticed, but the edits that must fail and what rt writes
SOURCES := crates.txt $(shell find crates -mindepth 2 \( -name must-fail -o -name out \) -prune -o -print)

.PHONY: run run-latin1 show test bench soak install uninstall fmt clean library program
# one proof at a time: what one has proved the next need not
.NOTPARALLEL:

run: $(PROGRAM)
	$(PROGRAM) < examples/paper.txt

# in two steps, so that nothing is vetted where iconv meets what ISO 8859-1 does not have
run-latin1: $(PROGRAM)
	iconv -f UTF-8 -t ISO-8859-1 examples/paper-fr-es.txt > target/paper-fr-es.txt
	$(PROGRAM) < target/paper-fr-es.txt

# The texts reach the shell in the environment, so that nothing in them is expanded. An ANSWER that is given and empty is the empty
# answer. Where the client's status is not 0 (1 refused, 2 not converted, 3 runaway), make's own line has it after 'Error', and make
# ends with 2.
show: export SHOW_PATTERN := $(value PATTERN)
show: export SHOW_ANSWER := $(value ANSWER)
show: $(CLIENT)
	@[ "$(origin PATTERN)" != undefined ] || { echo "usage: make show PATTERN='..' ANSWER='..'" >&2; exit 2; }
	@$(CLIENT) "$$SHOW_PATTERN" $(if $(filter undefined,$(origin ANSWER)),,"$$SHOW_ANSWER")

test:
	@RT="$(RT)" tests/gate

library: $(LIBRARY)

program: $(PROGRAM)

$(LIBRARY): $(SOURCES)
	@mkdir -p $(@D)
	@(cd crates/marking_c && $(RT) lib) > target/library.log 2>&1 || { cat target/library.log; exit 1; }
	@cp crates/marking_c/out/libmarking_c.a $@

# the program is run once, on the crate's own sample
$(PROGRAM): $(SOURCES)
	@mkdir -p $(@D)
	@(cd crates/vet && $(RT) run) > target/program.log 2>&1 || { cat target/program.log; exit 1; }
	@cp crates/vet/out/vet $@

$(CLIENT): examples/client.c include/marking.h $(LIBRARY)
	@mkdir -p target/c
	@$(CC) -std=c99 -O2 -Wall -Wextra -pedantic -Iinclude examples/client.c $(LIBRARY) -o $@

bench: $(LIBRARY)
	@CARGO_TARGET_DIR=target/bench cargo run --release --offline --quiet --manifest-path bench/Cargo.toml -- $(PART)

soak: $(LIBRARY)
	@CARGO_TARGET_DIR=target/tests cargo run --release --offline --quiet --manifest-path tests/library/Cargo.toml -- $(N) $(SEED)

# the same folders for both, absolute, with DESTDIR before them where it is given
install uninstall: INCLUDEDIR = $(DESTDIR)$(abspath $(includedir))
install uninstall: LIBDIR = $(DESTDIR)$(abspath $(libdir))
install uninstall: BINDIR = $(DESTDIR)$(abspath $(bindir))

install: $(LIBRARY) $(PROGRAM)
	install -d $(INCLUDEDIR) $(LIBDIR)/pkgconfig $(BINDIR)
	install -m 644 include/marking.h $(INCLUDEDIR)/marking.h
	install -m 644 $(LIBRARY) $(LIBDIR)/libmarking.a
	install -m 755 $(PROGRAM) $(BINDIR)/vet
	sed -e 's|@prefix@|$(abspath $(prefix))|' -e 's|@includedir@|$(abspath $(includedir))|' -e 's|@libdir@|$(abspath $(libdir))|' \
	  marking.pc.in > $(LIBDIR)/pkgconfig/marking.pc
	chmod 644 $(LIBDIR)/pkgconfig/marking.pc

uninstall:
	rm -f $(INCLUDEDIR)/marking.h $(LIBDIR)/libmarking.a $(LIBDIR)/pkgconfig/marking.pc $(BINDIR)/vet

fmt:
	for crate in crates/*/; do (cd $$crate && $(RT) fmt) || exit; done

clean:
	rm -rf target crates/*/out
