#!/bin/sh
# Times the reader's pass in Rust and, if a crate is named, in Rattle beside it:
#   bench/run.sh [CRATE]
# CRATE_c is a static library that exports what CRATE has as bench_best (see bench/rust/bench.rs), as timing_c does; `rt lib`
# makes its archive, which is linked under CRATE's name.
# Nothing here is part of the gate. Run it on a quiet machine.
set -eu
root=$(cd "$(dirname "$0")/.." && pwd)
work=$(mktemp -d)
trap 'rm -rf "$work"' EXIT
link=
if [ $# -gt 0 ]; then
    (cd "$root/crates/${1}_c" && rt lib)
    cp "$root/crates/${1}_c/out/lib${1}_c.a" "$work/lib$1.a"
    link="--cfg rattle -L native=$work -l static=$1"
fi
rustc --edition 2021 -O --check-cfg 'cfg(rattle)' $link -o "$work/bench" "$root/bench/rust/bench.rs"
"$work/bench" "$root/samples"
