#!/bin/sh
# Builds the plain Rust programs into target/bench.
set -e
cd "$(dirname "$0")/.."
out=target/bench
mkdir -p $out
rustc -O --edition 2021 --crate-type rlib --crate-name clockbox -o $out/libclockbox.rlib bench/plain/clockbox.rs
for program in box record nights selftest; do
    [ -f bench/plain/$program.rs ] || continue
    rustc -O --edition 2021 --crate-name plain_$program --extern clockbox=$out/libclockbox.rlib -o $out/$program bench/plain/$program.rs
done
