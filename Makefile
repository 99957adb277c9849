# make reach: proves, builds and runs the example program.
# make test:  the whole proof, then the examples, the tests and the comparisons with the second program.
# make compare SEED=1 CALLS=1000000: the comparisons, for as long as asked.
# make memcheck SEED=1 CALLS=100000: the same under valgrind.
# make bench: the library beside plain Rust.
# make library: proves the library and writes target/staticlib/libreach_c.a.
.PHONY: reach test compare memcheck bench library

SEED ?= 1
CALLS ?= 1000000

reach:
	cd crates/reach && rt run

library:
	tools/staticlib

test:
	tools/gate

compare: library
	cd rust && cargo run --offline --release -p compare -- --seed $(SEED) --calls $(CALLS)

memcheck: CALLS = 100000
memcheck: library
	cd rust && cargo build --offline --release -p compare
	cd rust && valgrind --error-exitcode=1 target/release/compare --seed $(SEED) --calls $(CALLS)

bench: library
	cd rust && cargo run --offline --release -p bench
