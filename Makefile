# `make` proves the program and builds it; `make demo` runs its commands on the examples.
PROGRAM = crates/ocsf/out/ocsf

.PHONY: all demo test

all:
	cd crates/ocsf && rt run -- edits < /dev/null > /dev/null

demo:
	@examples/demo.sh $(PROGRAM)

test:
	rt ci
