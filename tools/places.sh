#!/bin/bash
# The places in src/ that may read like the older language, for docs/DESIGN-PASS.md: `tools/places.sh` counts them, `tools/places.sh -v`
# prints them too. What is found is a line to look at; the page says which of them are places.
cd "$(dirname "$0")/.." || exit 1
show() {
    local name=$1 lines
    lines=$(cat)
    printf '%s: %s\n' "$name" "$(printf '%s' "$lines" | grep -c .)"
    if [ "$verbose" = -v ]; then printf '%s\n' "$lines" | sed 's/^/    /'; fi
}
find_in() { grep -nE "$1" crates/*/src/*.rt | grep -vE ':[0-9]+:\s*//'; }
verbose=$1
find_in '^\s*(pub )?[a-z_]+: bool,' | show '1 a flag in a struct, an enum or a signature'
find_in '^\s*(Nothing|NoTask|NotOut|Out|Halt|Stop|Bad),$' | show '1 a variant that stands for none or for a refusal'
find_in 'Reply::No\([0-9]|No\(u8\)|number: u8|Option<bool>' | show '1 a number or a bool for a kind or a refusal'
find_in 'Err\([a-z_]+\) => (return )?Err\(|Err\(_\) => (return )?Err|let Ok\(.*else|if let Err|None => None,$|kind == kinds' | show '1 a result passed on by hand, and a kind compared by number'
grep -nE '//.*(or 0\b|0 if|0 past|are 0\.|1 more, or)' crates/*/src/*.rt | show '1 a number that stands for none, by its comment'
find_in '^\s*(for [a-z_]+ in [^&"]*\.\.|while [^"]*\{$)' | grep -vE 'for _' | show '3 a loop over a range of numbers, or by a condition'
find_in 'matches!|fn (rank|key_code|is_same|is_unary|closes|stops_at|ends|reason|op_at|operator_of|kind_of|digit|hex_digit|copy)\b' | show '4 a comparison or a conversion by hand'
find_in 'u(16|32|64)::from\(.*\) \* |/ 16777216|/ 65536|/ 256 %|/ 4294967296' | show '4 a number put together from bytes, or taken apart, by hand'
find_in '_wording\(|is_word\(w' | show '4 printing, and a chain of comparisons, by hand'
for crate in crates/*/; do
    grep -hE '^\s+requires' "$crate"src/*.rt 2>/dev/null | sed -E 's/^ *requires [a-z_]* *//' | sort | uniq -c | sort -rn | awk -v c="$crate" '$1 >= 3 {print c": "$0}'
done | show '5 a fact that stands in the requires of three or more functions of a crate'
find_in '^\s*(pub )?(len|count): (usize|u64)|^\s*(pub )?(words|args|lasts|sees|counts|pushed): (Vec<|\[u)' | show '6 a length, a count or a buffer in a struct or a signature'
find_in 'match (kind|command|tag|words\[.*|self\.state) \{' | show '7 a switch'
