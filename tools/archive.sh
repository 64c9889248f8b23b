#!/usr/bin/env bash
# Proves and builds a static library: the C functions as target/staticlib/libsqueeze.a,
# or those to measure with as libprobe.a.
# usage: tools/archive.sh squeeze|probe
set -eu
cd "$(dirname "$0")/.."
case ${1:-} in
    squeeze) crate=squeeze_c ;;
    probe) crate=probe ;;
    *)
        echo "usage: tools/archive.sh squeeze|probe" >&2
        exit 2
        ;;
esac
(cd "crates/$crate" && rt lib)
mkdir -p target/staticlib
cp "crates/$crate/out/lib$crate.a" "target/staticlib/lib$1.a"
