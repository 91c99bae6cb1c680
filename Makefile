# make run      prove, build and run the bench program on plan K
# make pool     prove the library and build the pool command, target/pool
# make test     everything: proofs, must-fail edits, programs, C and Rust tests; the last line counts
# make seats    run plan K with a process for each seat, and print each seat's results
# make install  the library, its header, pool, seat and their manual pages below PREFIX (and DESTDIR before it)
# make speed    time the library against the Rust reference and against hand-written C in one process, as ratios (WORKS="bench count": these alone)
.PHONY: run bench test seats speed library host pool install

VERSION = 1.0.0
PREFIX = /usr/local
DESTDIR =

LIBRARY = target/staticlib/libpool.a
COMPILE = gcc -std=gnu11 -O2 -Wall -Wextra -Werror -Wvla -Iinclude -Icommand

run: bench
	@target/bin/bench <examples/K.bench

test:
	@tools/progress tools/in-memory tests/all

seats: host
	@rm -rf target/seats && cp -r examples/seats target/seats
	@host/run-seats examples/K.plan target/seats

speed: library
	@flint=$$(tests/speed/build) && cd tests/reference && POOL_LIB_DIR="$(CURDIR)/target/staticlib" POOL_LIMIT_DIR="$(CURDIR)/target/speed" \
		POOL_FLINT="$$flint" CARGO_TARGET_DIR="$(CURDIR)/target/reference" cargo run --offline --release --quiet --bin speed -- $(WORKS)

# the bench program; what builds it runs it too, here on no input
bench:
	@tools/in-memory tools/progress --log target/run.log --crate bench rt run </dev/null
	@install -CD crates/bench/out/bench target/bin/bench

# the static library
library: $(LIBRARY)
	@:

$(LIBRARY): crates.txt $(shell find crates -name out -prune -o \( -name '*.rt' -o -name '*.antt' \) -print)
	@tools/in-memory tools/progress --log target/library.log --crate pool rt lib
	@install -D -m 644 crates/pool/out/libpool.a $@

# the host program of one seat
host: target/host/seat
	@:

# of the pool command it has the lists and what a plan says
HOST = $(wildcard host/*.c) $(addprefix command/,lists.c plan.c input.c output.c)

target/host/seat: Makefile $(HOST) $(wildcard host/*.h command/*.h) include/pool.h include/pool_refusals.h $(LIBRARY)
	@tools/openssl
	@mkdir -p target/host
	@$(COMPILE) $$(pkg-config --cflags openssl) -pthread -o $@ $(HOST) $(LIBRARY) $$(pkg-config --libs openssl)

# the pool command
pool: target/pool
	@:

target/pool: Makefile $(wildcard command/*.c command/*.h) include/pool.h include/pool_refusals.h $(LIBRARY)
	@$(COMPILE) -DPOOL_VERSION='"$(VERSION)"' -o $@ command/*.c $(LIBRARY)

install: library host pool
	@install -d "$(DESTDIR)$(PREFIX)/bin" "$(DESTDIR)$(PREFIX)/include" "$(DESTDIR)$(PREFIX)/lib/pkgconfig" "$(DESTDIR)$(PREFIX)/share/man/man1"
	@install -m 755 target/pool target/host/seat "$(DESTDIR)$(PREFIX)/bin"
	@install -m 644 include/pool.h include/pool_refusals.h "$(DESTDIR)$(PREFIX)/include"
	@install -m 644 $(LIBRARY) "$(DESTDIR)$(PREFIX)/lib"
	@sed -e 's|@PREFIX@|$(PREFIX)|' -e 's|@VERSION@|$(VERSION)|' include/pool.pc.in >target/pool.pc
	@install -m 644 target/pool.pc "$(DESTDIR)$(PREFIX)/lib/pkgconfig"
	@install -m 644 man/pool.1 man/seat.1 "$(DESTDIR)$(PREFIX)/share/man/man1"
