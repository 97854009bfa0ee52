# README's two commands: `make evaluate FILE=..` and `make test`.
.POSIX:
.PHONY: evaluate test proofs rust examples program library long bench clean

FILE = examples/example.field

# The proved program on one field file.
evaluate: program
	@.ci/x86_64 target/bin/evaluate < "$(FILE)"

# The gate: every crate proved, every must-fail edit refused; then the Rust tests and the example files on what was proved. It ends with
# the proofs' own last line.
test:
	@.ci/run

proofs:
	@rt ci

rust:
	@.ci/rust

examples: program
	@.ci/examples

# target/bin/evaluate. On a new machine it is proved first, which takes some minutes, otherwise only what has changed; what the
# proofs print is in target/evaluate.log.
program:
	@mkdir -p target/bin
	@cd crates/evaluate && rt run < stdin > ../../target/evaluate.log 2>&1 || { cat ../../target/evaluate.log; exit 1; }
	@cp crates/evaluate/out/evaluate target/bin/evaluate

# target/library/libmeliphrast.a, for the Rust crate `meliphrast` or a C program to link.
library:
	@.ci/library

# So many calls beside the second implementation, in rounds from ROUND on; the seed is another than the gate's.
CALLS = 10000000
SEED = 171239
ROUND = 0

long:
	@.ci/cargo run -q --offline --release --bin long_run -- "$(CALLS)" "$(SEED)" "$(ROUND)"

# The two side by side on the clock.
bench:
	@[ "$$(uname -m)" = x86_64 ] || { echo "the library is x86-64 code: times taken under an emulator say nothing"; exit 1; }
	@.ci/cargo run -q --offline --release --bin bench

clean:
	rm -rf target rust/target crates/*/out
