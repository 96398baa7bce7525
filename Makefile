# make run: the listing of a sample batch. make shim: the C programs. make test: the gate. make bench: the benchmark. make limits: what a
# call of the library can take, in stack and in time.
gcc := gcc -std=c11 -O2 -Wall -Wextra -Werror -pedantic -Iinclude
lib := target/staticlib/libmpl.a
programs := $(addprefix target/bin/mpl_,shim feed replay limits calls)
tools := need-rt need-gcc need-cargo
# Folders too, as a file that went changes its folder alone.
sources := crates.txt $(shell find crates -name out -prune -o -print)

.PHONY: run shim test bench limits $(tools)
.DELETE_ON_ERROR:

run: target/bin/mpl_list
	@target/bin/mpl_list <samples/worked.bin

shim: target/bin/mpl_shim target/bin/mpl_feed target/bin/mpl_replay

test:
	bash .ci/run

bench: $(tools) $(lib)
	cargo build --release --offline --manifest-path crosscheck/Cargo.toml
	crosscheck/target/release/bench

limits: target/bin/mpl_limits
	@target/bin/mpl_limits

$(tools): need-%:
	@command -v $* >/dev/null || { echo "missing: $*" >&2; exit 1; }

# rt run proves, builds and runs a program, and leaves it in the crate's out/; what it prints there of no input is not asked for.
target/bin/mpl_list target/bin/mpl_list6: target/bin/%: $(sources) | need-rt
	@echo "proving, some minutes" >&2
	@mkdir -p target/bin
	@cd crates/$* && rt run </dev/null >/dev/null 2>&1 || { echo "$* is not proved: rt check in crates/$* says why" >&2; exit 1; }
	@cp crates/$*/out/$* $@

$(lib): $(sources) | need-rt need-gcc
	@echo "proving, some minutes" >&2
	@mkdir -p target/staticlib
	@cd crates/mpl && rt lib >/dev/null || { echo "mpl is not proved: rt check in crates/mpl says why" >&2; exit 1; }
	@cp crates/mpl/out/libmpl.a $@

$(programs): target/bin/mpl_%: shim/%.c shim/files.c shim/files.h include/mpl.h $(lib)
	@mkdir -p target/bin
	$(gcc) $(filter %.c,$^) $(lib) -o $@

target/bin/mpl_shim target/bin/mpl_feed: shim/batch.c shim/batch.h
