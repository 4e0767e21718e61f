#!/bin/sh
# Compares the proved reader and printer of plans with plain ones: run-text.sh [PASSES] [RUNS]
set -e
cd "$(dirname "$0")/.."
passes=${1:-2000}
runs=${2:-3}
work=$(mktemp -d)
trap 'rm -r "$work"' EXIT
(cd crates/bench_text && rt run) > "$work/check" 2>&1 || { cat "$work/check"; exit 1; }
rustc -O --edition 2021 -o "$work/text" bench/text.rs
"$work/text" sizes | diff - crates/bench_text/stdout
i=0
while [ "$i" -lt "$runs" ]; do
    echo "proved:"
    crates/bench_text/out/bench_text "$passes"
    echo "plain:"
    "$work/text" "$passes"
    i=$((i + 1))
done
