#!/usr/bin/env bash
# Instructions of one call on small records: a picture 64 by 64 with the default
# plan, and 64 channels with 64 steps not in place, rebuilt and written. For the
# archive of this tree, or for each archive that is named. Needs cc and valgrind.
set -eu
here=$(pwd)
cd "$(dirname "$0")/.."
if [ $# -eq 0 ]; then
    tools/archive.sh squeeze > /dev/null
    set -- "$PWD/target/staticlib/libsqueeze.a"
fi
mkdir -p target/bench

# callgrind counts `rep stosb` byte by byte, so the C library is told to set memory
# without it.
export GLIBC_TUNABLES=glibc.cpu.x86_rep_stosb_threshold=100000000:glibc.cpu.x86_rep_movsb_threshold=100000000

# The count of `$1` rounds, by what callgrind says of the program.
counted() {
    valgrind --tool=callgrind --callgrind-out-file=/dev/null target/bench/calls "$2" "$3" "$1" 2>&1 |
        sed -n 's/.*Collected : //p'
}

for archive; do
    case $archive in /*) ;; *) archive=$here/$archive ;; esac
    cc -O2 -I include bench/calls.c "$archive" -o target/bench/calls
    for record in default steps; do
        for call in rebuild write; do
            one=$(counted 1 "$record" "$call")
            eleven=$(counted 11 "$record" "$call")
            echo "$record $call: $(((eleven - one) / 10)) instructions"
        done
    done
done
