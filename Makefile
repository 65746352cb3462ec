# gtmr: `make try` builds a program in a minute, `make demo` runs an example on it, `make test` is the gate.
PREFIX ?= /usr/local
export RT ?= rt
DEMO ?= examples/first-steps.gtmr

.PHONY: all try demo test examples bench install clean

# the proved program
all: bin/gtmr

bin/gtmr: $(wildcard crates/*/src/*.rt crates/*/specs/*.antt crates.txt)
	@tools/needs_rt
	cd crates/gtmr && $(RT) run -- run < ../../examples/first-steps.gtmr > /dev/null
	mkdir -p bin
	cp crates/gtmr/out/gtmr bin/gtmr

# the proved program that measures the journal pool
bin/pool_bench: $(wildcard crates/*pool*/src/*.rt crates/*pool*/specs/*.antt crates.txt)
	@tools/needs_rt
	cd crates/pool_bench && $(RT) run > /dev/null
	mkdir -p bin
	cp crates/pool_bench/out/pool_bench bin/pool_bench

# the proved program that measures the reader of frames
bin/wire_bench: $(wildcard crates/*wire*/src/*.rt crates/*wire*/specs/*.antt crates.txt)
	@tools/needs_rt
	cd crates/wire_bench && $(RT) run > /dev/null
	mkdir -p bin
	cp crates/wire_bench/out/wire_bench bin/wire_bench

# the proved program that measures leaves beside a tree
bin/leaf_bench: $(wildcard crates/leaf_bench/src/*.rt crates/gvt_leaf/src/*.rt crates/block_*/src/*.rt crates/gvn_globals/src/*.rt crates.txt)
	@tools/needs_rt
	cd crates/leaf_bench && $(RT) run > /dev/null
	mkdir -p bin
	cp crates/leaf_bench/out/leaf_bench bin/leaf_bench

# the proved program that measures shipping
bin/ship_bench: $(wildcard crates/ship_*/src/*.rt crates/session_*/src/*.rt crates/repl_*/src/*.rt crates.txt)
	@tools/needs_rt
	cd crates/ship_bench && $(RT) run > /dev/null
	mkdir -p bin
	cp crates/ship_bench/out/ship_bench bin/ship_bench

# a program in a minute, of which nothing is proved
try:
	@tools/unproved
	@echo "bin/gtmr-unproved is built of these sources, and nothing of it is proved: 'make' builds the proved bin/gtmr, 'make test' is the gate"

# a script and what it prints
demo:
	@test -r "$(DEMO)" || { echo "$(DEMO) can't be read" >&2; exit 1; }
	@program=$$(tools/program) || exit; echo "; $$program run < $(DEMO)"; cat "$(DEMO)"; echo "; prints"; $$program run < "$(DEMO)"

test:
	@tools/needs_rt
	$(RT) ci

examples:
	tools/check

bench: bin/gtmr bin/pool_bench bin/wire_bench bin/leaf_bench bin/ship_bench
	tools/bench bin/gtmr

install: bin/gtmr
	install -D -m 755 bin/gtmr $(DESTDIR)$(PREFIX)/bin/gtmr

clean:
	rm -rf bin crates/*/out
