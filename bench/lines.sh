#!/bin/sh
# Lines a second by samples/ec.card, samples/ec.log again and again: the program `reading`,
# RE2 and Python's `re` with the same captures, OpenFst's shortest distance:
#   bench/lines.sh [PROGRAM]
# PROGRAM is crates/reading/out/reading if none is named (`rt run` in crates/reading builds it).
# Needs g++, RE2 and OpenFst (Debian: libre2-dev, libfst-dev). Each runs alone, from lines to
# printed answers in one process. RE2 and `re` have no weights, OpenFst gives weights and no
# spans; what they do give is compared with the program's. Nothing here is part of the gate.
set -eu
root=$(cd "$(dirname "$0")/.." && pwd)
program=${1:-$root/crates/reading/out/reading}
work=$(mktemp -d)
trap 'rm -rf "$work"' EXIT
g++ -std=c++17 -O2 -o "$work/regex" "$root/bench/cpp/regex.cc" -lre2
g++ -std=c++17 -O2 -o "$work/weights" "$root/bench/cpp/weights.cc" -lfst -ldl -pthread

# The first so many lines of the log again and again.
lines() { yes "$(cat "$root/samples/ec.log")" | head -n "$1"; }

by_reading() { cat "$root/samples/ec.card" "$1" | "$program"; }
by_re2() { "$work/regex" <"$1"; }
by_python() { python3 "$root/bench/lines.py" <"$1"; }
by_openfst() { "$work/weights" plain <"$1"; }
by_openfst_marked() { "$work/weights" marked <"$1"; }

# What can be compared: spans that are not empty (an empty mark stands before the spaces for the
# program, behind them for a greedy ` *`), or weights and `none`.
spans() { sed '/^weight=/d; /=\([0-9]*\),\1$/d' "$1"; }
weights() { sed -n 's/^weight=//; s/^answer=none$/none/; /^none$/p; /^[0-9]*$/p' "$1"; }

# measure TITLE WHAT LINES COMPARED: the best of three runs. The program's own, the first, are
# what the others are compared with, as far as their lines go.
measure() {
    lines "$3" >"$work/lines"
    for round in 1 2 3; do
        start=$(date +%s%N)
        "$2" "$work/lines" >"$work/out"
        echo $(($(date +%s%N) - start))
    done >"$work/times"
    test -f "$work/expected" || cp "$work/out" "$work/expected"
    "$4" "$work/out" >"$work/given"
    "$4" "$work/expected" | head -c "$(wc -c <"$work/given")" | cmp - "$work/given"
    sort -n "$work/times" | head -n 1 | awk -v title="$1" -v lines="$3" '{
        printf "%-36s %9.0f lines/s %9.1f us a line\n", title, lines * 1e9 / $1, $1 / lines / 1000 }'
}

measure "reading" by_reading 100000 spans
measure "RE2, captures" by_re2 100000 spans
measure "Python re, captures" by_python 100000 spans
measure "OpenFst, card without markers" by_openfst 10000 weights
measure "OpenFst, all markings of the line" by_openfst_marked 2000 weights
