#!/usr/bin/env bash
# run.sh COUNT SEED [OPTIONS]: that many random calls, each carried out by the static library and by the mended Rust in
# one process, answers and books compared. Without numbers it lists the options.
# run.sh --memcheck COUNT SEED [OPTIONS]: the same under valgrind's memcheck, which fails on an access outside what is
# lent; about ten times slower.
# First the static library is made of the crates as they stand (what is not proved yet is proved for it: on a fresh
# clone every crate below), and the tests run that show that a difference is noticed. SOLARBASIL_LIB=FOLDER links the
# library of that folder instead, and makes none.
# Needs rt and cargo; DOCS_SRC says where docs/src is, as for the oracle. No network.
set -euo pipefail
root=$(cd "$(dirname "$0")/../.." && pwd)
docs=${DOCS_SRC:-../shared/docs/src}
export DOCS_SRC=$(cd "$root" && cd "$docs" && pwd)
export CARGO_TARGET_DIR=$root/oracle/target/compare
check=()
if [ "${1:-}" = --memcheck ]; then
    shift
    check=(valgrind --tool=memcheck --error-exitcode=9 --redzone-size=1024)
fi

if [ -z "${SOLARBASIL_LIB:-}" ]; then
    (cd "$root/crates/solarbasil" && rt lib | tail -1)
fi
(cd "$root/oracle/compare" && cargo test --release --offline --locked --quiet &&
    cargo build --release --offline --locked --quiet)
exec "${check[@]}" "$CARGO_TARGET_DIR/release/compare" "$@"
