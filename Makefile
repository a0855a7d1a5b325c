# run, run-machine: prove and build a bench program, and run its worked example; test: the gate.
.PHONY: run run-machine test

run:
	cd crates/bench && rt run < /dev/null
	cd crates/bench/data && ../out/bench < ../stdin

run-machine:
	cd crates/machine_bench && rt run < /dev/null
	cd crates/machine_bench/data && ../out/machine_bench < ../stdin

test:
	.ci/run
