#!/usr/bin/env bash
# The host's benchmark with an earlier commit's archive beside this tree's and plain Rust, in one run.
# usage: bench/runs.sh COMMIT [SECONDS-PER-ROW]   (needs cargo and objcopy)
set -eu
cd "$(dirname "$0")/.."
SQUEEZE_BEFORE_DIR=$(bench/archive.sh "$1")
export SQUEEZE_BEFORE_DIR
cd host
cargo run --release --example bench -- "${2:-2}"
