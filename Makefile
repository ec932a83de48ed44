# The six things to do here. Each is one command; the work is in tools/.
SHELL := bash
.SHELLFLAGS := -o pipefail -c
RUST := cargo run --release --offline --locked --manifest-path

.PHONY: help demo test quick bench peers exhaustive

help:
	@echo 'make demo        prove the program repack, if it is not proved yet, and run it on a record'
	@echo 'make test        every test: all proofs from nothing, then all that is run'
	@echo 'make quick       no verdict, for the working day: proves what changed, and runs all but the whole domains'
	@echo 'make bench       time the proved library against the Rust that it replaces'
	@echo 'make peers       ask other software, if it is installed, what it makes of the same bytes'
	@echo 'make exhaustive  compare the proved library with the Rust on all inputs, for as long as it takes'

demo:
	@tools/program repack
	@echo 'repack, of the record 00 07 01 01 F6 7F 00 00 07:'
	@tools/run repack <tests/cases/repack/example/stdin

test:
	@tools/test

quick:
	@tools/test quick

bench:
	@tools/bench

# It installs nothing, and says what to type.
peers:
	@tools/archive >&2
	@tools/peers

# It may be stopped at any moment, and goes on from there.
exhaustive:
	@tools/archive
	@tools/archive adpcm_ima
	@tools/archive sweep
	@$(RUST) tests/differential/Cargo.toml -- exhaustive
