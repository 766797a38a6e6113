# The gate is `sh .ci/run`. This file has what is run by hand.

.PHONY: library example test largest-charge outputs fuzz calendars accounts benchmark benchmark-widths benchmark-shapes benchmark-account benchmark-calendar

CASES ?= 2000
LISTS ?= 400
SEED ?= 1
ROUNDS ?=
CARGO = cargo --offline
LIBRARY = crates/exports/out/libexports.a

# The proved calls as a library for Rust; proved again only where a crate has changed.
library: $(LIBRARY)

$(LIBRARY): crates.txt $(shell find crates -name '*.rt' -o -name '*.antt')
	cd crates/exports && rt lib
	touch $@

# An hour of a small line.
example: library
	cd rust && $(CARGO) run --release --example line

# That hour against the plain machine.
test: library
	cd rust && $(CARGO) test

# 4294967297 readings at 4294967295 units: the charge is 2^64 - 1, and one more is refused.
largest-charge: library
	cd rust && $(CARGO) test --release --test account -- --ignored

# What tools/ write, against the files of the crates that they wrote.
outputs:
	python3 tools/worked.py | cmp - crates/rules_worked/proofs/Lists.antt
	python3 tools/generator.py | cmp - crates/generator_test/stdout
	python3 tools/calendar.py | cmp - crates/calendar_test/stdout
	python3 tools/account.py | cmp - crates/account_test/stdout
	python3 tools/small_lists.py | cmp - crates/small_lists_run/stdout
	python3 tools/small_lists.py outputs | cmp - crates/small_lists_test/stdout
	python3 tools/star_tariff.py
	python3 tools/plan.py < tools/lines/dam.txt | cmp - example/plan.bin
	cmp example/plan.bin crates/quote/data/plan.bin
	cmp example/flood.txt crates/quote/stdin
	python3 tools/quote.py example/plan.bin example/flood.txt | cmp - crates/quote/stdout
	python3 tools/quote.py --svg example/plan.bin example/flood.txt | cmp - example/quote.svg
	python3 tools/quote_cases.py | cmp - crates/quote_refusals/stdout
	files=$$(mktemp -d) && python3 tools/quote_cases.py write $$files && diff -r $$files crates/quote_refusals/data && rm -r $$files
	python3 tools/quote_cases.py pictures | cmp - crates/quote_picture_test/stdout
	python3 tools/pictures.py check
	python3 tools/commands.py tools/lines/river.txt 7 1500 | cmp - crates/bench_long/stdin
	for bench in two:bench two:bench_refusals repeats:bench_repeats river:bench_long; do \
	    line=tools/lines/$${bench%:*}.txt crate=crates/$${bench#*:}; \
	    python3 tools/plan.py < $$line | cmp - $$crate/data/plan.bin && \
	    python3 tools/bench.py $$line < $$crate/stdin | cmp - $$crate/stdout || exit 1; \
	done

# The engine and the account against simple ones, call by call, and the engine on damaged buffers.
fuzz: library
	cd rust && $(CARGO) run --release --bin fuzz -- $(CASES) $(SEED)

# The calendar at all four arities against the reading in Python: the calls of calendar_test, and drawn lists.
calendars: library
	cd rust && $(CARGO) build --release --bin fuzz
	python3 tools/calendar.py | rust/target/release/fuzz calendars
	python3 tools/calendar.py $(LISTS) $(SEED) | rust/target/release/fuzz calendars

# The account against the reading in Python: the calls of account_test, and drawn lists.
accounts: library
	cd rust && $(CARGO) build --release --bin fuzz
	python3 tools/account.py | rust/target/release/fuzz accounts
	python3 tools/account.py $(LISTS) $(SEED) | rust/target/release/fuzz accounts

# The engine against a plain machine on std's BinaryHeap, in one run; ROUNDS=9 by default. With Debian's libns3-dev and
# python3-simpy also against these.
benchmark: library
	if [ -e /usr/include/ns3/core-module.h ]; then g++ -O2 -std=c++17 benchmarks/line_ns3.cc -lns3-core -o target/benchmark-ns3; fi
	cd rust && $(CARGO) run --release --bin benchmark -- $(ROUNDS)

# What a leaf width is chosen by: at each of seven, the bitmap words read a run lowest and the nanoseconds an event.
benchmark-widths: library
	cd rust && $(CARGO) run --release --bin benchmark -- widths $(ROUNDS)

# What an arity is chosen by: the same at the four of them and seven leaf widths, on long lines; then on shorter lines, and the calendar alone.
benchmark-shapes: library
	cd rust && $(CARGO) run --release --bin benchmark -- shapes $(ROUNDS)

# The account against a plain one that makes one pass, in one run.
benchmark-account: library
	cd rust && $(CARGO) run --release --bin benchmark -- accounts $(ROUNDS)

# The calendar against std's BTreeSet, in one run; ROUNDS=20 by default.
benchmark-calendar: library
	rustc -O --edition 2021 benchmarks/calendar.rs -L crates/exports/out -o target/benchmark-calendar
	target/benchmark-calendar $(ROUNDS)
