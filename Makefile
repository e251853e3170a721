# make run    proves and builds `list`, and lists the sample tape
# make test   every check, and last `rt ci`, which proves everything and runs the programs and the tests

.PHONY: run test

run:
	@mkdir -p target
	@echo 'proving and building list: about two minutes the first time' >&2
	@cd crates/list && rt run <../../samples/session.tape 2>../../target/run.log || { cat ../../target/run.log >&2; exit 1; }

test:
	tools/check
	tools/prove
