# make test     the gate: proves, tries the wrong programs, runs the programs and the examples, compares with the second program
# make wrong    tries the further wrong programs, those under crates/*/wrong (long: each costs a check of its crate)
# make sample   proves and builds the program `vectors`, and asks it about samples/feed, samples/states and samples/slices
# make list     proves and builds the program `listing`, and prints the listing of FILE, samples/runway.tsl if not said
# make lib      proves the C interface and writes target/staticlib/libtimeslices.a, for x86-64 Linux
# make night    the examples: the night of the cancelled runway change, in C and in Rust, and the edges of the C interface
# make compare  plays random calls to the library and to the second program, FOR=60s if not said
# make fuzz     the same comparison, guided by coverage, FOR=60s if not said
# make bench    measures the library against plain Rust
# make fmt      lays out every file of Rattle and antt

.PHONY: test wrong sample list lib night compare fuzz bench second-linked fmt

test:
	@.ci/run

wrong:
	@tools/wrong

sample:
	@tools/prove vectors
	@samples/ask samples/feed
	@samples/ask samples/states
	@samples/ask samples/slices

FILE = samples/runway.tsl

list:
	@[ -r '$(FILE)' ] || { echo 'make list: there is no $(FILE)' >&2; exit 1; }
	@tools/prove listing
	@tools/run listing <'$(FILE)'

lib:
	@tools/lib

night: lib
	@tools/examples
	@cargo run --quiet --offline --release --manifest-path bindings/rust/Cargo.toml --example night

second-linked: lib
	@cd second && cargo build --quiet --offline --release --features linked --target-dir target/linked

FOR = 60s

compare: second-linked
	@second/target/linked/release/second compare $(FOR)

fuzz: lib
	@tools/fuzz $(FOR:s=)

bench: second-linked
	@second/target/linked/release/second bench

fmt:
	@for crate in crates/*/; do (cd "$$crate" && rt fmt) || exit 1; done
