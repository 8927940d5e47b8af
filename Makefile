.PHONY: run test bench install

PREFIX ?= /usr/local

# Document 01's example, run the three ways by the program `margins`, and its worked steps. Leaves the program at target/margins.
run:
	@tools/program && tests/example && tools/run figures
	@echo "the program is target/margins"

# The gate.
test:
	@bash .ci/run

# This library over a hand-written C implementation: ratios of times, and of instructions by callgrind.
bench:
	@tools/library && bench/run

# The program, the header, the library and a pkg-config file below PREFIX.
install:
	@tools/install "$(PREFIX)"
