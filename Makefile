# make run: proves and builds the keeper program, and shows it answering a few lines.
# make test: the gate. Everything is proved, must-fail edits and tests included; what a run on this machine passed
# before, from nothing and on the same files, is not proved again.
# make bench: the program's rate beside that of a plain Rust program of the same rules.

.PHONY: run test bench

run:
	@mkdir -p target
	@echo "Proving and building what the keeper program needs .."
	@(cd crates/keeper_program && rt run < /dev/null) > target/run.log 2>&1 || { tail -20 target/run.log; exit 1; }
	@grep '^logic=' target/run.log | tail -1
	@echo "Keeper 0 of three, four meters. Each line that comes in, and what it writes (tabs shown as spaces):"
	@head -5 crates/keeper_program/stdin > target/sample
	@crates/keeper_program/out/keeper_program < target/sample | paste -d '~' target/sample - | sed 's/\t/ /g; s/^/  /; s/~/   ->   /'

test:
	@.ci/run

bench:
	@bench/run.sh
