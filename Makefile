# The two commands: `make run` lists the sample recording, `make test` is the gate.
.PHONY: run test

run:
	@mkdir -p target
	@echo 'Proving pieces and the crates below it; the log is target/run.log.'
	@cd crates/pieces && rt run < ../../samples/line.bin 2> ../../target/run.log || { cat ../../target/run.log; exit 1; }

test:
	@bash .ci/run
