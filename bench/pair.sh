#!/usr/bin/env bash
# Instructions per pair and per block, proved code beside plain Rust.
# usage: bench/pair.sh [CALLS]   (needs rustc, valgrind and objdump beside the toolchain)
set -eu
cd "$(dirname "$0")/.."
calls=${1:-20000}
tools/archive.sh probe > /dev/null
build=target/bench
mkdir -p "$build"
rustc --edition 2021 -O -L target/staticlib -o "$build/pair" bench/pair.rs
"$build/pair" 1000000
valgrind --tool=callgrind --callgrind-out-file="$build/pair.callgrind" "$build/pair" "$calls" > /dev/null 2>&1
count() {
    callgrind_annotate --threshold=100 "$build/pair.callgrind" |
        awk -v calls="$calls" -v name=":$1 " 'index($0 " ", name) || index($0, name) { gsub(",", "", $1); printf "%.1f\n", $1 / calls; exit }'
}
printf '%-22s %8s %8s %6s\n' 'instructions per call' proved Rust ratio
for what in unsqueeze squeeze block; do
    ours=$(count "probe_$what")
    plain=$(count "plain_$what")
    printf '%-22s %8s %8s %6s\n' "$what" "$ours" "$plain" "$(awk "BEGIN { printf \"%.2f\", $ours / $plain }")"
done
code() { objdump -d -M intel --no-show-raw-insn --disassemble="$1" target/staticlib/libprobe.a; }
echo
echo "a wrapping sum is: $(code probe_add | awk '/^ +[0-9a-f]+:/ { $1 = ""; sub(/^ +/, ""); printf "%s; ", $0 }')"
for f in probe_unsqueeze probe_squeeze probe_block; do
    echo "$f: $(code "$f" | grep -c -E '\bcall\b' || true) calls, $(code "$f" | grep -c -E '\b(p(add|sub|cmpgt|and|or|xor|sra|mulu)[a-z]*)\b' || true) vector instructions"
done
