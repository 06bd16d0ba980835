#!/bin/sh
# Compares a reader with the oracle's enumeration on every short card and line:
#   tests/world/world.sh READER [BYTES [PIECES [PARTS]]]
# READER is a program, or --fast for the oracle's other way. BYTES (3), PIECES (4) and
# PARTS (4) are the greatest lengths of cards (see world.rs); one more is ten times as long.
set -eu
here=$(cd "$(dirname "$0")" && pwd)
work=$(mktemp -d)
trap 'rm -rf "$work"' EXIT
rustc --edition 2021 -O -o "$work/world" "$here/world.rs"
"$work/world" "$1" "${2:-3}" "${3:-4}" "${4:-4}"
