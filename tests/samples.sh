#!/bin/sh
# Compares a reader with the samples:
#   tests/samples.sh READER
# READER takes a card and lines on standard input and writes answers, as `reading` does.
set -u
reader=$1
samples=$(cd "$(dirname "$0")/../samples" && pwd)
cases=0
wrong=0
for card in "$samples"/*.card; do
    name=${card%.card}
    cases=$((cases + 1))
    if ! cat "$card" "$name.log" | $reader | cmp -s - "$name.out"; then
        wrong=$((wrong + 1))
        echo "differs: $(basename "$name")"
    fi
done
echo "samples: $cases cases, $wrong differences"
test "$wrong" -eq 0
