# make run: prove and build the program, hold the worked dialogue with it, and print it
# make test: the gate

.PHONY: run test
run:
	@cd crates/explore && rt run < stdin

test:
	@tests/gate
