# What can be made here; `make help` lists it. All of it but the help needs the Rattle kit (rt on the PATH). The library
# is built where it is missing or older than its sources; FLANGEMINT_LIB_DIR names the folder of another one.

CASES ?= 100000
SEED ?= 1
SECONDS ?= 3600

TRIALS := cargo run --quiet --release --manifest-path rust/Cargo.toml -p trials --
STRICT := -O2 -Wall -Wextra -Werror -pedantic -Iinclude
LIBRARY := $(or $(FLANGEMINT_LIB_DIR),target/native)
ARCHIVE := $(if $(FLANGEMINT_LIB_DIR),,archive)

.DEFAULT_GOAL := help
.PHONY: help check test ground fmt archive cli test-cli c-check sentences python-test test-scripts trials sums player stack scribble bench \
    linear versus profile slowest fuzz samples expected vectors readme report-test names

help: ## this list
	@awk -F ':.*## ' '/^[a-z-]+:.*## / { printf "  %-13s %s\n", $$1, $$2 }' Makefile

check: ## proves every crate
	rt all check

test: ## the gate: every proof, must-fail edit, test and program
	bash .ci/run

ground: ## the ground alone: numbers and the written rules proved, their must-fail edits refused
	rt ci numbers rules
	rt must-fail numbers rules

fmt: ## lays out the Rattle and the Rust sources (cargo)
	for crate in crates/*/; do (cd "$$crate" && rt fmt) || exit; done
	cargo fmt --all --manifest-path rust/Cargo.toml

archive: ## proves the library and builds it for x86-64: target/native (a C compiler)
	@tools/build archive archive

cli: ## builds the command, which ./flangemint runs (cargo)
	@tools/build cli command

test-cli: archive ## the command's own tests (cargo)
	tools/command test

c-check: $(ARCHIVE) sentences ## the programs of c/ against header and library, on samples (a C and a C++ compiler, python3)
	$(CC) -std=c99 $(STRICT) c/check.c $(LIBRARY)/libflangemint.a -o target/c-check
	$(CC) -std=c99 $(STRICT) c/stream.c $(LIBRARY)/libflangemint.a -o target/c-stream
	$(CXX) -std=c++98 $(STRICT) -fsyntax-only -x c++ include/flangemint.h
	tools/test-c target/c-check target/c-stream

sentences: ## flangemint_sentence against docs/REFUSALS.md (a C compiler, python3)
	CC='$(CC)' tools/sentences check

names: ## a name of src, specs or proofs stands for one thing (python3)
	tools/names

python-test: archive ## the Python module, its page and its tests (python3)
	PYTHONPATH=python python3 -B -m doctest python/README.md python/flangemint.py
	PYTHONPATH=python python3 -B -m unittest --quiet python/test_flangemint.py

test-scripts: ## ./intake, ./pack, ./stream and ./flangemint as they are called: statuses, streams, builds
	tools/test-scripts

trials: $(ARCHIVE) ## the proved code against the Rust reference, CASES a job (cargo)
	$(TRIALS) run --seed $(SEED) --cases $(CASES)

sums: $(ARCHIVE) ## of these the long sample tables alone, CASES of them (cargo)
	$(TRIALS) sums --seed $(SEED) --cases $(CASES)

player: $(ARCHIVE) ## document 01's player over drawn sets, by the library's verdicts, CASES of them (cargo)
	$(TRIALS) player --seed $(SEED) --cases $(CASES)

stack: $(ARCHIVE) ## every exported function on its worst inputs in 64 KiB (cargo)
	$(TRIALS) stack

scribble: $(ARCHIVE) ## a track in pieces with a spoilt memory: no fault, CASES of them (cargo)
	$(TRIALS) scribble --seed $(SEED) --cases $(CASES)

bench: $(ARCHIVE) ## time beside the Rust reference, on rows whose names contain ROWS (cargo)
	$(TRIALS) bench $(if $(ROWS),'$(ROWS)')

linear: $(ARCHIVE) ## time a box, of tracks of 4,096, 16,384 and 65,536 boxes (cargo)
	$(TRIALS) linear

versus: $(if $(BEFORE),$(ARCHIVE)) ## the same rows with the archive BEFORE, another build of the library, beside them (cargo, binutils)
	tools/versus '$(BEFORE)' $(if $(ROWS),'$(ROWS)')

profile: $(ARCHIVE) ## instructions by function, with those of the archive BEFORE where it is given (cargo, valgrind, python3)
	tools/profile $(if $(BEFORE),'$(BEFORE)')

slowest: $(ARCHIVE) ## the slowest of CASES drawn inputs a job, from 10 KiB on (cargo)
	$(TRIALS) slowest --seed $(SEED) --cases $(CASES)

fuzz: $(ARCHIVE) ## the exported functions against the reference, SECONDS long (clang-14, cargo; see rust/fuzz)
	rust/fuzz/run fuzz $(SECONDS)

samples: ## the stored tracks of real encoders, good and damaged (python3)
	samples/check ./intake

expected: ## writes the samples' expected lines anew, by the reference (cargo)
	$(TRIALS) expect samples/good-*.bundle samples/bad-*.bundle > samples/expected.txt

readme: ## runs what the README shows and compares (cargo, a C compiler, python3, ffmpeg)
	tools/readme

report-test: ## the report in a browser (cargo, python3, chromium)
	tools/report-test

vectors: ## writes the gate's cases anew: the reference's, the samples', the fuzzer's (cargo, python3)
	cd rust/vectors && cargo run --quiet --release --manifest-path ../Cargo.toml -p trials --no-default-features -- \
	    vectors --seed 1
	cd rust/vectors && cargo run --quiet --release --manifest-path ../Cargo.toml -p trials --no-default-features -- \
	    lines < fuzz-cases.bin > fuzz-expected.txt
	cp rust/vectors/cases.bin crates/vectors/stdin
	cp rust/vectors/expected.txt crates/vectors/stdout
	samples/cases crates/vectors/stdin crates/vectors/stdout
	cat rust/vectors/fuzz-cases.bin >> crates/vectors/stdin
	cat rust/vectors/fuzz-expected.txt >> crates/vectors/stdout
	rust/vectors/print-cases
	cat rust/vectors/print-cases.bin >> crates/vectors/stdin
	cat rust/vectors/print-expected.txt >> crates/vectors/stdout
	cat rust/vectors/stream-cases.bin >> crates/vectors/stdin
	cat rust/vectors/stream-expected.txt >> crates/vectors/stdout
