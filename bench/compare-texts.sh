#!/bin/sh
# Holds the table of texts against the plain reader: what is a plan, its size and how it is printed must be the same.
# Where a text is refused may differ, as for one that is too large.
set -e
cd "$(dirname "$0")/.."
work=$(mktemp -d)
trap 'rm -r "$work"' EXIT
rustc -O --edition 2021 -o "$work/text" bench/text.rs
"$work/text" table < crates/texts/stdin | sed 's/^\([^ ]* no\) .*/\1/' > "$work/plain"
sed 's/^\([^ ]* no\) .*/\1/' crates/texts/stdout > "$work/stored"
diff "$work/plain" "$work/stored"
echo "$(wc -l < "$work/stored") texts: the same answers"
