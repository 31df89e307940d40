# make run    proves and builds what is missing (scripts/build), then runs the line program on standard input
# make test   the gate (.ci/run): all proofs, the edits that must fail, all tests
# make map    writes the map of the crates anew, from crates.txt
# make rules  writes the numbers of their rules to the files of definitions anew, from docs/RULES.md

# Make says nothing of its own on standard output, so that the answers stand alone there. (With -C it does: make -s -C FOLDER run.)
.SILENT:
.PHONY: help run test map rules

help:
	sed -n 's/^# \(make .*\)/\1/p' Makefile

run:
	scripts/run-bench

test:
	bash .ci/run

map rules:
	cd scripts/checks && cargo run --quiet --offline --locked --bin $@ -- ../..
