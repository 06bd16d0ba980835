#!/bin/sh
# Compares the oracle, both ways, with a folder of vectors:
#   tests/oracle/vectors.sh FOLDER [READER]
# FOLDER has reading/*.in and *.out, tables/reading.jsonl and tables/compiling.jsonl.
# READER, if given, is a program to compare with reading/ in the same way.
set -eu
here=$(cd "$(dirname "$0")" && pwd)
work=$(mktemp -d)
trap 'rm -rf "$work"' EXIT
rustc --edition 2021 -O -o "$work/oracle" "$here/oracle.rs"
python3 "$here/vectors.py" "$work/oracle" "$@"
