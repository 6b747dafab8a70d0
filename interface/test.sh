#!/usr/bin/env bash
# Makes the static library and the program `close`, runs the example from C and from Rust, compares the answers with
# example.txt and the closing books with those of `close`, and runs the tests in C and those of the Rust wrapper. No
# network.
set -euo pipefail
cd "$(dirname "$0")"
here=$PWD
work=$(mktemp -d)
trap 'rm -rf "$work"' EXIT

(cd ../crates/solarbasil && rt lib | tail -1)
# `rt run` proves and builds the program, and runs it where there are no files: refused 60
(cd ../crates/close && rt run 2>&1 | tail -1)
cp ../example/opening.w ../example/calls.w "$work"
(cd "$work" && "$here/../crates/close/out/close")

for name in example calls lengths; do
    "${CC:-cc}" -std=c11 -Wall -Wextra -Werror -O2 "c/$name.c" ../crates/solarbasil/out/libsolarbasil.a \
        -o "$work/$name"
done
"$work/example" ../example/opening.w ../example/calls.w "$work/from_c.w" | diff - example.txt
cmp "$work/from_c.w" "$work/closing.w"
"$work/calls"
"$work/lengths"
echo "C: example, closing books, calls and lengths as expected"

cd "$here/rust"
export CARGO_TARGET_DIR=$here/../target/interface
cargo test --offline --quiet
cargo run --offline --quiet --example example -- ../../example/opening.w ../../example/calls.w "$work/from_rust.w" |
    diff - ../example.txt
cmp "$work/from_rust.w" "$work/closing.w"
echo "Rust: tests pass, example and closing books as expected"
