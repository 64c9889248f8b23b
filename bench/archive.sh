#!/usr/bin/env bash
# The archive of an earlier commit as libbefore.a, its functions named `before_*`, in a folder of its own,
# whose name is printed.
# usage: bench/archive.sh COMMIT   (needs objcopy)
set -eu
cd "$(dirname "$0")/.."
old=$PWD/target/bench/before-$(git rev-parse --short "$1")
if [ ! -f "$old/libbefore.a" ]; then
    rm -rf "$old"
    mkdir -p "$old/tree"
    git archive "$1" | tar -x -C "$old/tree"
    if [ ! -x "$old/tree/tools/archive.sh" ]; then
        echo "$1 is from before tools/archive.sh, and written for another toolchain than today's" >&2
        exit 1
    fi
    (cd "$old/tree" && tools/archive.sh squeeze > /dev/null 2>&1)
    cp "$old/tree/target/staticlib/libsqueeze.a" "$old/libbefore.a"
    for name in tile rebuild write tile_marked rebuild_marked write_marked grid_rect listing layout record; do
        objcopy --redefine-sym "squeeze_$name=before_$name" "$old/libbefore.a"
    done
fi
echo "$old"
