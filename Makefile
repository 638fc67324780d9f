# Short names for what is done often. `make help` lists them.
.PHONY: help test check fmt try expected list lib install example compare bench

help: ## list the targets
	@grep -hE '^[a-z]+:.*## ' $(MAKEFILE_LIST) | sed 's/:.*## /\t/' | expand -t 8

test: ## run all tests: prove every crate, try the must-fail edits, run the programs and comparisons
	.ci/run

check: ## prove what has changed since the last time
	rt all check

fmt: ## lay out the sources and proofs
	for crate in crates/*/; do (cd $$crate && rt fmt) || exit 1; done

try: ## run the programs with no proof, on an interpreter and compiled with checks, and compare what they print
	mkdir -p target/tests
	for crate in cases listing; do \
	  (cd crates/$$crate && rt try <stdin >../../target/tests/$$crate.tried) && cmp target/tests/$$crate.tried crates/$$crate/stdout || exit 1; \
	done

expected: ## write the sample archive, and what the programs must print, anew by the second implementation in Rust
	mkdir -p target/tests
	rustc -O --edition 2021 tests/compare/expected.rs -o target/tests/expected
	for script in tests/scripts/*.case; do \
	  target/tests/expected $$script >target/tests/text && cp target/tests/text $${script%.case}.stdout || exit 1; \
	done
	target/tests/expected crates/cases/stdin >target/tests/text && cp target/tests/text crates/cases/stdout
	target/tests/expected --sample >samples/plant.archive
	target/tests/expected --sample >crates/listing/stdin
	target/tests/expected --listing >crates/listing/stdout

ARCHIVE = samples/plant.archive

# The listing program has no exit status of its own: what it tells on standard error is made one.
list: ## list the records of an archive, the sample's or those of ARCHIVE=file
	@test -r "$(ARCHIVE)" && test ! -d "$(ARCHIVE)" || { echo "make list: no file '$(ARCHIVE)' to read; name one as ARCHIVE=file" >&2; exit 2; }
	@tools/prove program listing
	@target/bin/listing <"$(ARCHIVE)" 2>target/listing.err; status=$$?; cat target/listing.err >&2; \
	test $$status -eq 0 && test ! -s target/listing.err

PREFIX = /usr/local
# The header has the library's version.
VERSION = $(shell awk '/^.define SIK_VERSION_(MAJOR|MINOR|PATCH) / { printf "%s%s", dot, $$3; dot = "." }' include/sikafondza.h)

lib: ## build the static library and put it with its header under build/
	@tools/prove staticlib gateway
	mkdir -p build/lib build/include
	cp target/staticlib/libgateway.a build/lib/libsikafondza.a
	cp include/sikafondza.h build/include/

install: lib ## install library, header and pkg-config file under PREFIX (/usr/local); DESTDIR goes in front
	install -d $(DESTDIR)$(PREFIX)/include $(DESTDIR)$(PREFIX)/lib/pkgconfig
	install -m 644 build/include/sikafondza.h $(DESTDIR)$(PREFIX)/include/
	install -m 644 build/lib/libsikafondza.a $(DESTDIR)$(PREFIX)/lib/
	sed 's|@PREFIX@|$(abspath $(PREFIX))|; s|@VERSION@|$(VERSION)|' sikafondza.pc.in > build/sikafondza.pc
	install -m 644 build/sikafondza.pc $(DESTDIR)$(PREFIX)/lib/pkgconfig/

example: lib ## build examples/daemon.c against build/ and run it
	$(CC) -std=c99 -pedantic -Wall -Wextra -O2 -Ibuild/include examples/daemon.c -Lbuild/lib -lsikafondza -o build/daemon
	build/daemon

compare: ## compare the library with the second implementation in Rust, ten times as long as the gate does
	tests/run long

BENCH_CC = gcc clang
# Turns of each workload; empty for the program's own number.
BENCH_TURNS =
# How many bytes past a multiple of 64 the library's code begins, a table for each: times move with it.
BENCH_PLACES = 0

bench: ## time the library beside the same work in C: one table for each C compiler there is
	@tools/prove staticlib gateway
	@for c in $(BENCH_CC); do \
	  command -v $$c >/dev/null || continue; \
	  for p in $(BENCH_PLACES); do \
	    printf '.section .note.GNU-stack\n.text\n.balign 64\n.rept %d\nnop\n.endr\n' $$p >target/place.s; \
	    $$c -std=c99 -pedantic -Wall -Wextra -O3 -Iinclude bench/*.c target/place.s target/staticlib/libgateway.a -o target/bench || exit 1; \
	    echo "C by $$c -O3, the library at $$p"; target/bench $(BENCH_TURNS) || exit 1; \
	  done; \
	done
