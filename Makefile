# `make audit` shows the audit of the example; `make picture` draws it; `make test` is the gate.
# `make check` proves what changed since the last check; `make lists` runs the second program's part alone;
# `make fuzz SEED=n [RUNS=100]` holds the proved program to the second one on fresh journals;
# `make bench` measures what the standing rules, every call, from C too, and a replay cost (docs/PERFORMANCE.md). Neither is part of the gate.
# `make lib` puts the C library and its header into target/lib; `make install PREFIX=/usr/local` installs both, with a
# pkg-config file, and the program.
.PHONY: audit picture test check lists fuzz bench fmt lib install

PREFIX ?= /usr/local

audit:
	@tools/audit

picture:
	@tools/audit picture

test:
	.ci/run

check:
	rt all check

lists:
	tests/check-suites

fuzz:
	@tools/build
	@tests/fuzz $(SEED) $(RUNS)

bench:
	tests/bench
	tests/bench-growth
	tests/bench-c
	@tools/build
	tests/bench-journal

fmt:
	@for crate in crates/*/; do (cd $$crate && rt fmt) || exit 1; done

lib:
	@echo "proving and building the C library; the first time this takes some ten minutes" >&2
	@tools/library target/lib/liboberkosz.a
	@cp include/oberkosz.h target/lib/oberkosz.h
	@echo "target/lib has liboberkosz.a and oberkosz.h"

install: lib
	@tools/build
	@tools/install "$(PREFIX)"
