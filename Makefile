# `make test` is the whole gate: the proofs, then the host tests. Its last line is 'N passed, 0 failed'.
.PHONY: test run fuzz bench

N = 1000
SEED = 1

test:
	@host/gate

# The listings of the sample files.
run:
	@mkdir -p target; host/build pstore >target/run.log 2>&1 || { cat target/run.log; exit 1; }
	@for file in examples/*.hex; do echo "== $$file"; python3 host/bytes.py $$file | host/on target/bin/pstore; done

# The compiled library against the second program, on N fresh files of every kind.
fuzz: target/oracle
	@mkdir -p target/host
	@host/build listing_c >target/host/staticlib.log 2>&1 || { cat target/host/staticlib.log; exit 1; }
	@host/cc plain target/host/serve host/harness.c target/staticlib/liblisting.a
	@target/oracle fuzz --serve $(N) $(SEED) any host/on target/host/serve serve

# Both programs side by side on the same files, in one run.
bench: target/oracle
	@mkdir -p target; host/build pstore >target/bench.log 2>&1 || { cat target/bench.log; exit 1; }
	@if [ "$$(uname -m)" = x86_64 ]; then on=; else on=host/on; echo "pstore runs emulated here: its times are no measure against the second program's"; fi; python3 host/bench.py target/oracle $$on target/bin/pstore

target/oracle: $(wildcard oracle/src/*.rs)
	@mkdir -p target
	rustc -O --edition 2021 -D warnings -o $@ oracle/src/main.rs
