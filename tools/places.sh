#!/bin/sh
# Counts the places in src/ that docs/DESIGN-PASS.md speaks of, point by point: tools/places.sh [TREE] [-v]
# TREE is a checkout (this one, if it is left out); -v prints each place. A pattern finds candidates: the page says which of them are places.
tree=${1:-.}
[ "$tree" = -v ] && { tree=.; set -- . -v; }
cd "$tree" || exit 2
files=$(ls crates/*/src/*.rt)

# NAME PATTERN: lines of code that match, comments left out
count() {
    found=$(grep -nHE "$2" $files | grep -vE '^[^:]*:[0-9]+:[[:space:]]*//')
    echo "$1: $(printf '%s' "$found" | grep -c .)"
    [ "$verbose" = -v ] && printf '%s\n' "$found" | sed 's/^/    /'
}
verbose=$2

count '1a a failing case in an enum of our own' '^[[:space:]]*(Wrong|Refused|Fails|Bad|Short)( \{|,)'
count '1b a number for a kind, a refusal or a place' '\b(number|place|part|kind|variable|line): u32'
count '1c a number that says "none" or "not here"' '^ *(return )?(4294967295|18446744073709551615|NO_ARC|MARK|SHUT|MUST);?$|[=!<>]= (4294967295|18446744073709551615|NO_ARC|MARK|SHUT|MUST|Cell::NONE\.weight)\b|< NO_ARC|(27|SETTINGS) <= d|variable == 0|number != 0'
count '1d a result that carries where to go on' 'struct (Read|Asked|Taken)\b'
count '2a helpers that are twins in several crates: casts, smaller, larger' 'fn (wide|wide8|word|long|narrow|size|low|least|larger|digit)\('
count '2b the same function twice' '^(pub )?fn (words|bytes|case|lighter|sum)\b.*\((cells|text|rt|a): '
count '3 loops that count by hand' '^[[:space:]]*(while |loop \{)'
count '4 equality, conversion by hand' 'fn (same_[a-z]+|spans_at|spans_of|wide|narrow)\(|\[set\.s1'
count '5a a fact of a buffer in a clause' '(1024|864|64|6|18|4) ≤ length|[01] < length'
count '5b RightTable, Markers, Moves in a clause' 'requires.*(RightTable|Markers|Moves)'
count '5c parameters that travel together' '(cells: &(mut )?\[u32\], labels|nw: &.b mut \[u32\]|ow: &.a \[u32\]|lo: &\[u32\], hi|lo: usize, hi: usize|text: &\[u8\], at: usize|out: &mut \[u8\], at: usize|room: &mut \[u32\], at: usize|words: &mut \[u32\], bytes)'
count '6a parallel arrays' '\[u(32|64); 864\]|labels\[2 \*'
count '6b a length beside a buffer' '\b(held|out|len|count|n): usize'
count '7 a switch on which step to run' 'kind\.value ==|part (==|<)|variable == 0'
lines() {
    found=$(find crates/*/proofs -name "$2" | sort)
    echo "$1: $(printf '%s' "$found" | grep -c .)"
    echo "$1, lines: $(cat $found /dev/null | wc -l)"
}

lines '8a files of answers' Answers.antt
lines '8b files of invariants and measures' Invariants.antt
