SHELL := bash
.SHELLFLAGS := -o pipefail -c
.PHONY: demo test compare bench lib c-example rust-test load-sheets plan plan-test

# What `rt` says of each crate goes to standard error as it comes, and what the prover says only where the check fails.
have_rt = command -v rt >/dev/null || { echo "make: 'rt', the Rattle kit, is not on the PATH (README.md names its identity)" >&2; exit 2; }
say_crates = sed -u -n -e '/^crate /{s/^crate \([a-z_0-9]*\):.*/proved: \1/;h;}' -e '/^logic=proved/{g;p;}'

demo:
	@$(have_rt)
	@mkdir -p target
	@{ (cd crates/seatlist && rt run < stdin) 2>&1 >&3 | tee target/demo.log | $(say_crates) >&2; } 3>&1 || { grep -v ': proved$$' target/demo.log >&2; exit 1; }

test:
	bash .ci/run

compare:
	compare/run check

bench:
	compare/run bench

# The proved library and its header, for C and Rust to link.
lib:
	@$(have_rt)
	@mkdir -p target/lib target/include
	@(cd crates/seats && rt lib) 2>&1 | tee target/lib.log | $(say_crates) >&2 || { grep -v ': proved$$' target/lib.log >&2; exit 1; }
	@cp crates/seats/out/libseats.a target/lib/libseats.a
	@cp include/seats.h target/include/seats.h
	@echo "library: target/lib/libseats.a, header: target/include/seats.h"

# These use the library of the folder FEEDERCOIL_LIB, by default the one that `make lib` wrote.
lib_folder = $(abspath $(or $(FEEDERCOIL_LIB),target/lib))
have_cargo = command -v cargo >/dev/null || { echo "make: 'cargo', of the Rust tools, is not on the PATH" >&2; exit 2; }
have_lib = test -f "$(lib_folder)/libseats.a" || { echo "make: no libseats.a in $(lib_folder): run 'make lib' first" >&2; exit 2; }

c-example:
	@command -v $(CC) >/dev/null || { echo "make: '$(CC)', a C compiler, is not on the PATH" >&2; exit 2; }
	@$(have_lib)
	@mkdir -p target/examples
	$(CC) -Wall -Wextra -Werror -std=c99 -Iinclude -o target/examples/seatrun examples/c/seatrun.c "$(lib_folder)/libseats.a"
	target/examples/seatrun | diff examples/c/expected -

rust-test:
	@$(have_cargo)
	@$(have_lib)
	cd rust && FEEDERCOIL_LIB="$(lib_folder)" cargo test --offline

# Load sheets of random ships, counted anew from their records by a program that shares no code with the crates.
load-sheets:
	@$(have_cargo)
	@$(have_lib)
	cd rust && FEEDERCOIL_LIB="$(lib_folder)" cargo run --quiet --offline --example load_sheets | python3 ../tools/load_sheet.py runs

# The program seatplan, and of the ferry its table, its picture and its bytes (docs/PLANS.md). The library is built first where it is not there.
plan:
	@$(have_cargo)
	@test -n "$(FEEDERCOIL_LIB)" -o -f target/lib/libseats.a || $(MAKE) lib
	@$(have_lib)
	cd seatplan && FEEDERCOIL_LIB="$(lib_folder)" cargo build --quiet --release --offline
	@mkdir -p target/plan
	seatplan/target/release/seatplan examples/ferry/plan.csv examples/ferry/seats.csv --svg target/plan/ferry.svg --ship target/plan/ferry.ship \
	    --seats target/plan/ferry.seats --records target/plan/ferry.records --seatlist target/plan/ferry.seatlist > target/plan/ferry.txt
	@echo "table: target/plan/ferry.txt, picture: target/plan/ferry.svg, program: seatplan/target/release/seatplan"

# Its tests; all that it writes, worked out anew by a program that shares no code with it; and the picture of the documents, which is today's.
plan-test: plan
	cd seatplan && FEEDERCOIL_LIB="$(lib_folder)" cargo test --offline
	python3 tools/seatplan.py check
	diff examples/ferry/ferry.svg target/plan/ferry.svg
