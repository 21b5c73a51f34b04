# The commands of this repository: `make help` lists them, by the comments behind two number signs.
CARGO = cargo
PACKAGE = --manifest-path harness/Cargo.toml
BUILD = $(PACKAGE) --target-dir harness/target --offline --quiet
HARNESS = $(BUILD) --release
FAIR = $(BUILD) --profile bench-fair
FEATURES = --features engine,monitor

.DEFAULT_GOAL = help
.PHONY: help run show try install test quick gate-selftest proved-selftest promises lint bars parts compare host commands soak mutants bench size

# What a user gives is a value and no command: it is taken as written, and reaches a recipe by the environment alone.
TAPE ?= tapes/tape-x.txt
PREFIX ?= /usr/local
SOAK ?= 10
override TAPE := $(value TAPE)
override PREFIX := $(value PREFIX)
override SOAK := $(value SOAK)
export TAPE PREFIX SOAK

## To use it

help: ## this list
	@awk -F ':.*## ' '/^## / { print substr($$0, 4) } /^[a-z-]+:.*## / { printf "  make %-15s %s\n", $$1, $$2 }' Makefile

run: ## the lines of one tape, as text, hex digits or bytes: make run TAPE=tapes/lesson-3.txt
	@tools/play run "$$TAPE"

show: ## the same with each call, what its answer means, and totals: make show TAPE=tapes/lesson-3.txt
	@tools/play show "$$TAPE"

try: ## type calls one by one, and see each answer at once
	@tools/play try

install: ## monitor, tape, the header and the archive: make install PREFIX=/usr/local
	@tools/locked tools/install "$$PREFIX"

## The gate

test: ## every test and every proof: the quick checks, all proofs, then the comparisons
	@tools/locked tools/gate

## The quick checks

quick: gate-selftest proved-selftest promises bars lint ## those with which the gate begins

gate-selftest: ## whether the gate tells green from red
	tools/gate-selftest

proved-selftest: ## whether what has changed is proved and shown, by one at a time
	tools/proved-selftest

promises: ## whether every public function promises one result, and whether this check finds one that does not
	tools/promises
	tools/promises --selftest

lint: ## the layout of every file in Rust, and what clippy finds there; `rt ci` refuses a file in Rattle or antt that is not laid out
	$(CARGO) fmt $(PACKAGE) --check
	$(CARGO) clippy $(HARNESS) --bins -- -D warnings
	$(CARGO) clippy $(HARNESS) $(FEATURES) --all-targets -- -D warnings

bars: ## the lines above 160 characters and the chains of more than three `.before`; there must be none
	tools/size --bars

## The comparisons

parts: ## what the Rust and C sides link and run
	@tools/locked tools/parts

# Always the program that was just built and the usual seeds, whatever MONITOR and SOAK say outside.
compare: parts ## the engine and the program beside the second program
	env -u MONITOR -u SOAK $(CARGO) test $(HARNESS) $(FEATURES)

host: parts ## a host in C and in C++ plays Tape X through the header, and tries every sentence of the header on the engine
	harness/c/try include target/header

commands: parts ## whether the commands do as the README says
	tools/commands

## Longer checks

soak: parts ## the comparisons with more seeds, and their counts: make soak SOAK=50 takes fifty times the seeds
	env -u MONITOR $(CARGO) test $(HARNESS) $(FEATURES) --test engine --test replay --test monitor --test streams -- --nocapture

mutants: ## rules edited one by one: a theorem no longer follows
	tools/mutants

## Measures

bench: parts ## the program beside the second program on the same tapes, as a ratio: make bench LONG=1 goes to ten million calls
	$(CARGO) build $(FAIR) --bins
	$(CARGO) run $(FAIR) --bin bench -- $(if $(value LONG),--long)

size: ## lines of code, definitions, laws and answers by crate, the longest line and file, and the chains of `.before`
	@tools/size
