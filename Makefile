# The shed-link block decoder. `make run` shows it working, `make test` checks everything, `make bench` measures it.
.PHONY: run test bench fuzz audit prove staticlib firmware dist install mlgd reference decode tools python c

N ?= 20
MATRIX ?= examples/tanner155.alist
SAMPLES ?= examples/blocks.csv
SETTING ?= bits 8 limit 64 level-step 0.1
RESULTS ?= build/results.csv
OPTIONS ?=
MAP ?= $(basename $(RESULTS)).svg
FIRMWARE ?= build/staticlib/libfirmware.a
DIST ?= dist
PREFIX ?= /usr/local
DESTDIR ?=

# Decodes SAMPLES by MATRIX and SETTING, the example block set without them, into the table RESULTS and its picture MAP.
# OPTIONS are further ones of `mlgd decode`, such as --header --skip-columns 2. Blocks that stay open (status 1) are no fault.
run: tools
	@echo "The first run proves and builds all it needs, crate after crate (build/run.log tells how far it is); later runs take seconds."
	@mkdir -p build && $(MAKE) --no-print-directory build/staticlib/libffi.a build/bin/decode mlgd >build/run.log 2>&1 || { cat build/run.log; exit 1; }
	build/release/mlgd decode --matrix "$(MATRIX)" --setting "$(SETTING)" --samples "$(SAMPLES)" --out "$(RESULTS)" $(OPTIONS) || test $$? -eq 1
	build/release/mlgd map "$(RESULTS)" --out "$(MAP)"
	@head -n 20 "$(RESULTS)"
	@echo "The table is $(RESULTS), for a spreadsheet; its map is $(MAP), for a browser."

# The layout, the drawn pages, `rt ci`, then the Rust tests on what it proved: its 'N passed, 0 failed' is the last line.
test: tools python c
	tools/gate

# The firmware's archive; two more, which nobody but the benchmark links: the core of one-step voting and the replay of a lent index, and,
# in C, the plain replay that the library's is measured against. Then a program in C, which stands beside the benchmark's own in Rust.
bench: tools c staticlib build/bin/decode
	tools/archive firmware_c build/staticlib/libfirmware.a
	tools/archive ffi_bench_c build/staticlib/libffi_bench.a
	cc -O2 -c bench/c/replay.c -o build/staticlib/replay.o
	ar rcs build/staticlib/libplain_replay.a build/staticlib/replay.o
	cargo build --release --quiet -p bench --features measure
	cc -O3 bench/c/accumulate.c -o build/release/bench_accumulate_c
	build/release/bench

# The differential tests with N times as many random inputs.
fuzz: tools c staticlib build/bin/decode
	@$(MAKE) --no-print-directory firmware
	FUZZ_N=$(N) cargo test --release --workspace

prove: tools
	rt all check

# The exported functions for tests as a static library, also under a name that no system library has: build/libmlgd_calls.a.
staticlib: tools
	tools/archive ffi_c build/staticlib/libffi.a
	@cp build/staticlib/libffi.a build/libmlgd_calls.a

# The C face for firmware, proved, in the folder dist/: header, archive and pkg-config file. The folder may be moved.
firmware: tools
	tools/archive firmware_c build/staticlib/libfirmware.a
	@$(MAKE) --no-print-directory dist

# The folder alone, of the archive as it stands.
dist:
	@test -f "$(FIRMWARE)" || { echo "$(FIRMWARE) is missing: run 'make firmware' first" >&2; exit 1; }
	@mkdir -p "$(DIST)/include" "$(DIST)/lib/pkgconfig"
	@cp include/mlgd.h "$(DIST)/include/mlgd.h"
	@cp "$(FIRMWARE)" "$(DIST)/lib/libmlgd.a"
	@sed 's|@prefix@|$${pcfiledir}/../..|' include/mlgd.pc.in >"$(DIST)/lib/pkgconfig/mlgd.pc"

# What `make firmware` made, for every user of the machine: below PREFIX, or below DESTDIR/PREFIX where a package is made of it.
# It needs neither the toolchain nor cargo.
install:
	@test -f "$(DIST)/lib/libmlgd.a" || { echo "$(DIST)/lib/libmlgd.a is missing: run 'make firmware' first" >&2; exit 1; }
	install -d "$(DESTDIR)$(PREFIX)/include" "$(DESTDIR)$(PREFIX)/lib/pkgconfig"
	install -m 644 "$(DIST)/include/mlgd.h" "$(DESTDIR)$(PREFIX)/include/mlgd.h"
	install -m 644 "$(DIST)/lib/libmlgd.a" "$(DESTDIR)$(PREFIX)/lib/libmlgd.a"
	sed 's|@prefix@|$(PREFIX)|' include/mlgd.pc.in >"$(DESTDIR)$(PREFIX)/lib/pkgconfig/mlgd.pc"
	chmod 644 "$(DESTDIR)$(PREFIX)/lib/pkgconfig/mlgd.pc"

# The same archive, and the program, unless they are there already.
build/staticlib/libffi.a: $(wildcard crates/*/src/*.rt)
	tools/archive ffi_c $@

build/bin/decode: $(wildcard crates/*/src/*.rt)
	@$(MAKE) --no-print-directory decode

# The user's tool, which needs the archive: build/release/mlgd.
mlgd:
	cargo build --release --quiet -p mlgd

# The Rust that needs no archive: built while the archive is made.
reference:
	cargo build --release --quiet -p reference -p generator

# The program, proved and linked: build/bin/decode. `rt` has no command that links a program and does not run it.
decode: tools
	cd crates/decode && rt run </dev/null >/dev/null
	@mkdir -p build/bin && cp crates/decode/out/decode build/bin/decode

# Every must-fail edit, also those of crates/NAME/audit, which the gate leaves out; then those whose refusal shows nothing.
# Before, that each applies and says which fact is then false: that alone is `python3 tools/audit.py --headers`.
# The copy is made outside the checkout, as `rt ci` refuses .rt files in any other folder of it.
audit: tools python
	python3 tools/audit.py --headers
	@mkdir -p build
	@t=$$(mktemp -d) || exit 1; trap 'rm -rf "$$t"' EXIT; trap 'exit 1' HUP INT TERM; \
	tar -cf - $(wildcard crates.txt HANDLES $(foreach part,src specs proofs must-fail audit,crates/*/$(part))) | tar -xf - -C "$$t" || exit 1; \
	for d in "$$t"/crates/*/audit; do mkdir -p "$$d/../must-fail" && mv "$$d"/*.edit "$$d/../must-fail" || exit 1; done; \
	{ status=0; (cd "$$t" && rt must-fail) 2>&1 || status=$$?; echo "$$status" >build/audit.status; } | tee build/audit.log
	python3 tools/audit.py --log build/audit.log
	@[ "$$(cat build/audit.status)" = 0 ] || { echo "rt must-fail ended with status $$(cat build/audit.status)" >&2; exit 1; }

# What every target needs.
tools:
	@command -v rt >/dev/null || { echo "the Rattle toolchain is missing: 'rt' is not on the PATH" >&2; exit 1; }
	@command -v cargo >/dev/null || { echo "cargo is missing: install Rust to build the tool and the tests" >&2; exit 1; }

# What `test` and `audit` need beside that.
python:
	@command -v python3 >/dev/null || { echo "python3 is missing: the checks of the documents and of the edits need it" >&2; exit 1; }

# What `test`, `fuzz` and `bench` need beside that.
c:
	@command -v cc >/dev/null || { echo "cc is missing: install a C compiler to build the C programs of the tests and of the benchmark" >&2; exit 1; }
	@command -v ar >/dev/null || { echo "ar is missing: install binutils to make archives of C" >&2; exit 1; }
