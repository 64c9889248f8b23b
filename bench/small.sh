#!/usr/bin/env bash
# What a call on a picture 64 by 64 costs beyond its samples. Rebuilding: its time less that of its tile calls
# (bench/small.c). Writing: the part of its time that perf finds outside the function that squeezes; the clearing of the
# work slice and the last copies count as outside. Needs cc and perf.
set -eu
cd "$(dirname "$0")/.."
tools/archive.sh squeeze > /dev/null 2>&1
mkdir -p target/bench
cc -std=gnu99 -O2 -I include bench/small.c target/staticlib/libsqueeze.a -o target/bench/small
target/bench/small
cc -O2 -I include bench/calls.c target/staticlib/libsqueeze.a -o target/bench/calls
perf record -q -o target/bench/small.perf target/bench/calls default write 200000 > target/bench/small.out 2>&1
perf report -i target/bench/small.perf --stdio 2> /dev/null | awk '
    /^ +[0-9.]+%/ { all += $1 + 0; if ($0 ~ /squeeze_channel/) samples += $1 + 0 }
    END { printf "write: %.0f %% of its time beyond the samples\n", 100 * (all - samples) / all }'
