#!/usr/bin/env bash
# Lists the places of older forms in crates/*/src, by point, and counts them. With an argument N only point N is listed.
# `-q` prints the counts alone.
cd "$(dirname "$0")/../.." || exit 1

quiet=no
only=
for word in "$@"; do
    if [ "$word" = -q ]; then quiet=yes; else only=$word; fi
done

# Lines of the sources that match, comments left out.
src() {
    grep -rnE "$1" crates/*/src --include='*.rt' | grep -vE '^[^:]+:[0-9]+: *//'
}

show() { # point, what, lines on standard input
    [ -n "$only" ] && [ "${1%%[a-z]*}" != "$only" ] && return
    local lines
    lines=$(cat)
    printf '%s: %s: %s\n' "$1" "$2" "$(printf '%s' "$lines" | grep -c .)"
    [ $quiet = no ] && [ -n "$lines" ] && printf '%s\n' "$lines" | sed 's/^/    /'
}

src '^ +(Refused|Bad|No)(\(|,)' | show 1a 'variants for a refusal or for nothing in enums of our own'
src '\-> Option<Fault>' | show 1b 'functions that give a refusal as an Option'
src '[a-z]: bool[,)]' | show 1c 'flags that are passed or kept'
src 'fn (number|numbered|apply)\b' | show 1d 'numbers for kinds, reasons and codes'
src 'pub fn (set|put|pack)\b.*-> bool' | show 1e 'calls that say by a bool that they decline'
src '^ *(pub(\(crate\))? )?fn [a-z_]+' | sed -E 's/.*fn ([a-z_]+).*/\1/' | sort | uniq -d | show 2 'names that two functions or more have'
src 'for .* in .*\.\.|while ' | show 3 'loops over a range of numbers, and while loops'
src 'fn (same|copy|earlier|of|number|numbered|kind|digits?|nibble|write_[a-z]+|print_refusal)\b' | show 4 'equality, order, copies, conversions and printing'
src '(requires|ensures)( [a-z_]+)? \{ .* \}$' | sed -E 's/.*(requires|ensures)( [a-z_]+)? \{/{/' | sort | uniq -c | awk '$1 >= 3' | show 5a 'facts that stand in three clauses or more'
src 'contents M\.Op|run_of M\.Op' | show 5b 'clauses that say what tables or a run mean'
src '(numbers: Numbers|watch: Watch)(,|$)' | show 5c 'functions that are passed the numbers of a run, or a watch, beside other values'
src '^ +(pub )?(cells|bytes|gates|pounds|reaches): \[' | show 6 'arrays with a length beside them'
src 'dyn |Box<|: fn\(|=> quiet\(' | show 7 'tables of functions, and the same choice made at several places'
if [ -z "$only" ] || [ "$only" = 8 ]; then
    printf '8: lines of proofs: %s\n' "$(find crates/*/proofs -name '*.antt' -exec cat {} + | grep -c .)"
fi
