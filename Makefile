# make run: the known answers and the two C examples.   make quick: what a change touches.   make test: what the gate runs.
# make replay: the whole comparison with the second program.
# make bench: what a call costs, in executed instructions.   make trace: that every run of a call takes the same way.   make listing: that no register tells the secret.
.PHONY: run quick test replay bench trace listing clean

run:
	@tests/build
	@tests/run

quick:
	@tests/quick

test:
	@tests/gate

replay:
	@tests/build
	@tests/host all

bench:
	@tests/build
	@bash -c '. tests/tools.sh && emulated count bench'

trace:
	@tests/build
	@bash -c '. tests/tools.sh && emulated trace trace 1000'

listing:
	@tests/build
	@bash -c '. tests/tools.sh && $$EMULATOR build/listing all'

clean:
	rm -rf build crates/*/out
