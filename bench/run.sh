#!/bin/sh
# Builds the proved static libraries and times them against ordinary Rust, both with optimization. Prints two tables.
set -eu
cd "$(dirname "$0")/.."
mkdir -p target
tools/static bench_element bench_cursor >target/bench.log 2>&1 || { cat target/bench.log; exit 1; }
RUSTFLAGS="-L native=$PWD/target/staticlib" CARGO_TARGET_DIR="$PWD/target/bench" cargo run --quiet --release --manifest-path bench/Cargo.toml
