# make run shows the store and its judge at work; make test proves and tests everything; make mutants
# tries the edits under mutants/ (of one crate: CRATE=range), each of which the prover must refuse;
# make bench times the proved code beside the model and, where it is installed, SQLite, and writes
# docs/PERFORMANCE.md and its picture; make install puts programs, libraries and header in place.

PREFIX ?= /usr/local
SEED ?= 189
CFLAGS ?= -O2

SOURCES := crates.txt $(shell find crates -type f -not -path 'crates/*/out/*')
DRIVERS := target/bin/store_driver target/bin/judge_driver
LIBRARIES := target/staticlib/libstore.a target/staticlib/libjudge.a
VERSION := $(shell sed -n 's/^version = "\(.*\)"$$/\1/p' model/Cargo.toml)

# One run of rt works in a crate's folder at a time.
.NOTPARALLEL:
.PHONY: run test mutants bench install explain

run: $(DRIVERS) target/host/example explain
	@tools/run $(SEED)

test:
	@tools/test

mutants:
	@tools/mutants $(CRATE)

bench: SQLITE = $(shell echo 'int main(void) { return 0; }' | gcc -x c - -lsqlite3 -o /dev/null 2>/dev/null && echo ,sqlite)
bench: $(LIBRARIES)
	@$(if $(SQLITE),,echo 'libsqlite3 is not installed (libsqlite3-dev in Debian): measured without it')
	cd model && cargo run --offline --quiet --profile bench --features proved$(SQLITE) --bin bench

target/bin/%: $(SOURCES)
	@tools/prove program $*

target/staticlib/lib%.a: $(SOURCES)
	@tools/prove library $*

target/host/example: host/example.c host/koolvent.h $(LIBRARIES)
	@mkdir -p $(@D)
	$(CC) -std=c99 $(CFLAGS) -o $@ host/example.c $(LIBRARIES)

explain:
	@cd model && cargo build --offline --quiet --release --bin explain

# Installed, programs and libraries have names that say whose they are.
install: there = $(DESTDIR)$(PREFIX)
install: $(DRIVERS) $(LIBRARIES) explain
	install -d $(there)/bin $(there)/include $(there)/lib/pkgconfig
	install -m 755 target/bin/store_driver $(there)/bin/koolvent_store_driver
	install -m 755 target/bin/judge_driver $(there)/bin/koolvent_judge_driver
	install -m 755 model/target/release/explain $(there)/bin/koolvent_explain
	install -m 644 target/staticlib/libstore.a $(there)/lib/libkoolvent_store.a
	install -m 644 target/staticlib/libjudge.a $(there)/lib/libkoolvent_judge.a
	install -m 644 host/koolvent.h $(there)/include/koolvent.h
	sed -e 's|@PREFIX@|$(PREFIX)|' -e 's|@VERSION@|$(VERSION)|' host/koolvent.pc.in > $(there)/lib/pkgconfig/koolvent.pc
