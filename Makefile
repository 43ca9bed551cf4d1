# make demo: prove and run the main program on a sample day. make test: the gate.
.PHONY: demo test

demo:
	cd crates/tape_dump && rt run < ../../samples/first-day.tape

test:
	bash .ci/run
