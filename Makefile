# The commands of this repository, by short names: each calls scripts, whose heads say what they do.

.PHONY: help test check prove bugs interop bench fmt lint clean

help: ## lists these words
	@sed -n 's/^\([a-z]*\):.*## \(.*\)/make \1	\2/p' Makefile | expand -t 14

test: ## tests the pages, the programs and the libraries, with python3 and a C compiler, in minutes
	@tests/run

check: ## runs all tests, and names those that it skips since a tool is missing
	@.ci/quick

prove: ## the gate: proves and builds all with the kit, and tests what it built, in hours
	@.ci/run

bugs: ## tries the seeded bugs that the gate leaves out: the prover has to refuse them, in hours
	@tests/bugs.py

interop: ## runs the caches and routers of others that are here beside ours, and compares
	@interop/run.py

bench: ## measures how fast the programs and the libraries are, beside C by hand
	@set -e; for name in count data vrps validate clients; do bench/$$name.py; done

fmt: ## formats the code in Rattle, Go, Rust and C
	@.ci/format

lint: ## says what linters find in scripts, Go, Rust and C, and what make fmt would change
	@.ci/lint

clean: ## removes what was built and tested, but not what was proved
	@rm -rf bindings/lib bindings/c/out bindings/rust/target bindings/rust/tokio/target
	@find . -name __pycache__ -prune -exec rm -rf {} +
