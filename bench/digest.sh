#!/bin/sh
# Builds the Rattle hash and a plain Rust one, compares what they answer, and times both on one MiB.
set -e
cd "$(dirname "$0")/.."
mkdir -p target
(cd crates/digest_c && rt lib) > target/bench.log 2>&1 || { cat target/bench.log; exit 1; }
rustc -O --edition 2024 -o target/bench_digest bench/digest.rs -L crates/digest_c/out -l static=digest_c
target/bench_digest
