#!/bin/sh
# Rounds of random scripts against the proved program: rounds.sh REHEARSE FROM TO [--no-tell]
# A script with a difference is kept beside what was printed for it.
set -u
here=$(dirname "$0")
rehearse=$1 from=$2 to=$3
shift 3
work=$(mktemp -d)
rustc -O --edition 2024 -o "$work/reference" "$here/main.rs" || exit 2
differ=0
for seed in $(seq "$from" "$to"); do
    "$work/reference" make "$seed" "$@" > "$work/$seed.script"
    timeout 60 "$rehearse" < "$work/$seed.script" > "$work/$seed.out"
    ended=$?
    if [ $ended -eq 0 ] && "$work/reference" check "$work/$seed.script" "$work/$seed.out" "$@" > "$work/$seed.why"; then
        rm "$work/$seed.script" "$work/$seed.out" "$work/$seed.why"
    else
        differ=$((differ + 1))
        echo "seed $seed: ended by $ended, see $work/$seed.script"
        head -c 2000 "$work/$seed.why" 2> /dev/null
    fi
done
echo "$((to - from + 1)) rounds, $differ with a difference"
[ $differ -eq 0 ] && rm -r "$work"
[ $differ -eq 0 ]
