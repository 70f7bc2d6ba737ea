#!/bin/sh
# What a reset, and a stop with a reset, cost through C: instructions, as valgrind's callgrind counts them (300000 calls less 100000,
# over 200000, with the loop's own 25), and nanoseconds of processor time (the least of five runs of a million).
#   embed/bench.sh [FOLDER]
# FOLDER has what embed/build.sh made: embed/out if none is named. CC is the compiler.
set -eu
here=$(cd "$(dirname "$0")" && pwd)
from=${1:-$here/out}
work=$(mktemp -d)
trap 'rm -rf "$work"' EXIT
${CC:-cc} -std=gnu11 -O2 -I"$from/include" "$here/bench.c" -L"$from/lib" -lcallout -o "$work/bench"
instructions() { valgrind --tool=callgrind --callgrind-out-file="$work/out" "$work/bench" "$@" 2>&1 >"$work/said" | sed -n 's/.*Collected : \([0-9]*\).*/\1/p'; }
for live in 64 1024 65536 1000000; do
    for part in r s; do
        few=$(instructions $part $live 100000)
        many=$(instructions $part $live 300000)
        ns=$(for run in 1 2 3 4 5; do "$work/bench" $part $live 1000000; done | sort -n | head -1)
        echo "$part $live callouts: $(((many - few) / 200000)) instructions, $ns ns"
    done
done
