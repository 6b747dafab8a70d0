#!/usr/bin/env bash
# run.sh [ROUNDS]: each public call on 1,024, 16,384 and 65,536 validators, the static library beside the mended Rust;
# the tests alone; books files beside a plain copy and a plain read, and calls files beside the Rust in a loop. Prints
# the tables of docs/BENCHMARKS.md. It makes the library crates/solarbasil/out/libsolarbasil.a first, and for it proves
# what is not proved yet: on a fresh clone every crate below. Needs rt and cargo; DOCS_SRC says where docs/src is, as
# for the oracle. No network.
set -euo pipefail
cd "$(dirname "$0")"
root=$(cd .. && pwd)
docs=${DOCS_SRC:-../shared/docs/src}
export DOCS_SRC=$(cd "$root" && cd "$docs" && pwd)
export CARGO_TARGET_DIR=$root/target/bench
# the tables alone go to the output
(cd "$root/crates/solarbasil" && rt lib | tail -1) >&2
cargo build --release --offline --locked --quiet
exec "$CARGO_TARGET_DIR/release/bench" "$@"
