#!/bin/sh
# Everything that is tested beside the proofs, on the proved engine: the C programs, what is installed, the list program, the fuzzer,
# and the second reader's and editor's comparisons. Arguments: seed, number of images for the one and of histories for the other.
set -eu
cd "$(dirname "$0")/.."
tools/engine.sh
tests/programs/run.sh
tests/install/run.sh
tests/list/run.sh
tests/fuzz/run.sh "${1:-1}"
export CARGO_TARGET_DIR="$PWD/target/second"
cd tests/second
cargo build --release --offline --quiet
cargo test --release --offline --quiet
wrong/try.sh
"$CARGO_TARGET_DIR/release/compare" "${1:-1}" "${2:-200000}" 900
"$CARGO_TARGET_DIR/release/histories" "${1:-1}" "${3:-2500}" 900
