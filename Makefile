# make run: proves, builds and runs blockform on document 01's example. make test: everything that is tested.
# make prove: only the proofs. make library: the archive for C and Rust. make arm: the tests of the archive, on Arm.
# make fuzz: the fuzz targets, for a bounded time. make bench: times in ratios.
SHELL := /bin/bash
.PHONY: run test prove library arm fuzz bench

run:
	@set -eu; . tests/toolbox.sh; program blockform "$(CURDIR)/target/run.log"
	@printf 'HD\002\000\005\002MA\004\000\002\001\000\003' | tests/x86-64 target/bin/blockform

test:
	@tests/run

prove:
	rt all check

library:
	@set -eu; . tests/toolbox.sh; archive "$(CURDIR)/target/library.log"

arm:
	tests/arm

fuzz:
	fuzz/run

bench: library
	@bench/run
