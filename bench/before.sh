#!/usr/bin/env bash
# Tile calls and whole runs of this tree beside those of an earlier commit, in one run.
# usage: bench/before.sh COMMIT [SECONDS-PER-ROW]   (needs rustc and objcopy)
set -eu
cd "$(dirname "$0")/.."
old=$(bench/archive.sh "$1")
tools/archive.sh squeeze > /dev/null 2>&1
rustc --edition 2021 -O -L target/staticlib -L "$old" -o target/bench/before bench/before.rs
echo "before: $(basename "$old")"
target/bench/before "${2:-1}"
