# make demo        the main job, on a shipped example: bursts sent, received and printed
# make demo-uplink the same with an uplink beside the downlink
# make build       every program and the library for C
# make install     programs, library, header, pkg-config file and man pages, to DESTDIR/PREFIX (/usr/local)
# make uninstall   takes away what make install put there
# make test        every proof, every must-fail edit, every program and test; the gate
# make compare     the same calls through this library and through the original Rust, answers compared
# make bench       nanoseconds of every stage, beside the original Rust and liquid-dsp, from one driver in one run
# make limits      the receiver's limits, measured with liquid-dsp as the sender: tables, and the plots of docs/RADIO.md
PREFIX = /usr/local
DESTDIR =
VERSION = 0.1.0

PROGRAMS = tetra_rx tetra_tx listing replay
BIN = $(DESTDIR)$(PREFIX)/bin
INCLUDE = $(DESTDIR)$(PREFIX)/include
LIB = $(DESTDIR)$(PREFIX)/lib
MAN = $(DESTDIR)$(PREFIX)/share/man/man1

# gcc names a library that it finds by its path.
BENCHED = bench $(if $(filter /%,$(shell gcc -print-file-name=libliquid.so)),liquid)

.PHONY: demo demo-uplink build install uninstall test compare bench limits

demo:
	@scripts/prove tetra_tx tetra_rx >&2
	@target/bin/tetra_tx <examples/bursts.txt | target/bin/tetra_rx --no-bits

demo-uplink:
	@scripts/prove tetra_tx tetra_rx >&2
	@up=$$(mktemp) && trap 'rm -f "$$up"' EXIT && target/bin/tetra_tx examples/uplink.txt >"$$up" && \
		target/bin/tetra_tx examples/bursts.txt | target/bin/tetra_rx --no-bits --uplink "$$up"

build:
	@scripts/prove $(PROGRAMS) libmodem.a

install: build
	install -d "$(BIN)" "$(INCLUDE)" "$(LIB)/pkgconfig" "$(MAN)"
	for program in $(PROGRAMS); do install -m 755 target/bin/$$program "$(BIN)" || exit 1; done
	for program in $(PROGRAMS); do install -m 644 man/$$program.1 "$(MAN)" || exit 1; done
	install -m 644 include/tetra_modem.h "$(INCLUDE)"
	install -m 644 target/staticlib/libmodem.a "$(LIB)"
	sed -e 's|@PREFIX@|$(PREFIX)|' -e 's|@VERSION@|$(VERSION)|' include/tetra_modem.pc.in >"$(LIB)/pkgconfig/tetra_modem.pc"

uninstall:
	for program in $(PROGRAMS); do rm -f "$(BIN)/$$program" "$(MAN)/$$program.1"; done
	rm -f "$(INCLUDE)/tetra_modem.h" "$(LIB)/libmodem.a" "$(LIB)/pkgconfig/tetra_modem.pc"

test:
	@tests/run

compare:
	@scripts/prove replay
	@compare/run full $$(cat tests/replay/kinds)

bench:
	@scripts/prove libbench_signal.a libmodem.a
	@BENCH_LIBRARIES=$(CURDIR)/target/staticlib cargo run --quiet --offline --profile timed \
		--features "$(BENCHED)" --bin bench --manifest-path compare/Cargo.toml --target-dir compare/target

limits:
	@tests/limits/run
