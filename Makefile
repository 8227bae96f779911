# run: the main job on an example, or on a file: make run RECORD=file. test: the gate. bench: the library's speed.
SHELL := bash
.SHELLFLAGS := -euo pipefail -c
.ONESHELL:
.PHONY: run test bench

RECORD := examples/p1.record

# The static library that C and host/ link. `rt lib` proves it, as `rt run` proves the program, where nothing kept has it proved.
LIBRARY := crates/press/out/libpress.a

# The program, proved and linked, on a record.
run:
	(cd crates/verdict && rt run) < "$(RECORD)"

# Every crate proved, from nothing where this machine has not kept the proof of the same files, every must-fail edit refused and none of them
# bad, the programs run; then the archive, which needs `memset` from outside and nothing else, for callers without a C library; then the library and
# the program from Rust and from C. The last line is the prover's, printed again where everything passed.
test:
	log=$$(mktemp)
	trap 'rm -f "$$log"' EXIT
	rt ci | tee "$$log"
	if grep -Eq '^rt: ok;.*, [0-9]+ bad' "$$log"; then
		echo 'a must-fail edit can no longer be applied' >&2
		exit 1
	fi
	(cd crates/press && rt lib)
	wanted=$$(nm -u $(LIBRARY) | awk '$$1 == "U" { print $$2 }' | sort -u | tr '\n' ' ')
	if [ "$$wanted" != 'memset ' ]; then
		echo "the archive needs from outside: $$wanted" >&2
		exit 1
	fi
	mkdir -p target
	$(CC) -std=c11 -Wall -Wextra -Werror -O2 -Iinclude examples/press.c $(LIBRARY) -o target/press
	target/press
	cargo fmt --manifest-path host/Cargo.toml --check
	cargo test --manifest-path host/Cargo.toml --quiet
	tail -n 1 "$$log"

# The library against the baseline of host/, as two tables in Markdown: times, and the instructions that valgrind counts.
bench:
	(cd crates/press && rt lib)
	cargo run --manifest-path host/Cargo.toml --release --quiet --bin bench -- --instructions
