#!/bin/sh
# Times how the program `reading` handles its input, beside the same splitting in Rust, on a
# card and lines of 2,000 bytes, which are all refused; then its memory on one line of 1 GB:
#   bench/split.sh [PROGRAM]
# PROGRAM is crates/reading/out/reading if none is named (`rt run` in crates/reading builds it).
# Needs GNU time and 300 MB of temporary files. Nothing here is part of the gate.
set -eu
root=$(cd "$(dirname "$0")/.." && pwd)
program=${1:-$root/crates/reading/out/reading}
work=$(mktemp -d)
trap 'rm -rf "$work"' EXIT
rustc --edition 2021 -O -o "$work/split" "$root/bench/rust/split.rs"

card() { printf 'vars=0\npattern=~\n'; }

# Nanoseconds of one run on the file, or through a pipe.
from_file() {
    start=$(date +%s%N)
    "$1" <"$work/input" >"$2"
    echo $(($(date +%s%N) - start))
}
from_pipe() {
    start=$(date +%s%N)
    cat "$work/input" | "$1" >"$2"
    echo $(($(date +%s%N) - start))
}

# The best of seven runs of each, taking turns.
compare() {
    for round in 1 2 3 4 5 6 7; do
        "$1" "$work/split" "$work/rust.out" >>"$work/$1.rust"
        "$1" "$program" "$work/rattle.out" >>"$work/$1.rattle"
    done
    cmp "$work/rust.out" "$work/rattle.out"
    sort -n "$work/$1.rust" | head -n 1 >"$work/best"
    sort -n "$work/$1.rattle" | head -n 1 >>"$work/best"
    awk -v bytes="$bytes" -v title="$1" 'NR == 1 { rust = $1 } END {
        printf "%-10s Rust %5.0f MB/s   Rattle %5.0f MB/s   ratio of times %.2f\n",
            title, bytes * 1000 / rust, bytes * 1000 / $1, $1 / rust }' "$work/best"
}

{ card; yes "$(printf '%02000d' 7)" | head -n 150000; } >"$work/input"
bytes=$(wc -c <"$work/input")
echo "150000 lines of 2000 bytes, $bytes bytes; the answers are the same:"
compare from_file
compare from_pipe

# Peak memory, in KB, on one line of so many bytes.
peak() {
    { card; head -c "$1" /dev/zero | tr '\0' x; } | /usr/bin/time -f %M -o "$work/peak" "$program" >"$work/out"
    printf 'one line of %s bytes: code %s, peak memory %s KB\n' "$1" \
        "$(sed -n 's/^code=//p' "$work/out")" "$(cat "$work/peak")"
}
peak 2000
peak 1000000000
