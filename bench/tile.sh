#!/usr/bin/env bash
# The exported tile call beside a plain Rust of the same rule and a copy, in one run.
# usage: bench/tile.sh [SECONDS-PER-ROW]   (needs rustc beside the toolchain)
set -eu
cd "$(dirname "$0")/.."
tools/archive.sh squeeze > /dev/null 2>&1
mkdir -p target/bench
rustc --edition 2021 -O -L target/staticlib -o target/bench/tile bench/tile.rs
target/bench/tile "${1:-1}"
