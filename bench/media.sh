#!/usr/bin/env bash
# Whole files of 4,096 blocks appended, synced, fetched and retired: the proved media, and the same in plain Rust, one after the other.
# Needs crates/mediumbench/out/mediumbench (rt run in crates/mediumbench) and rustc. Usage: bench/media.sh [COUNT]
set -eu
cd "$(dirname "$0")/.."
count=${1:-1000}
work=$(mktemp -d)
trap 'rm -r "$work"' EXIT
rustc -O --edition 2024 -o "$work/rust" bench/media.rs
proved=crates/mediumbench/out/mediumbench
seconds() {
    local from to
    from=$(date +%s%N)
    "$1" <"$work/in" >"$2"
    to=$(date +%s%N)
    echo "$from $to" | awk '{ printf "%.3f", ($2 - $1) / 1e9 }'
}
for what in ring pool; do
    echo "$what $count" >"$work/in"
    for turn in 1 2 3; do
        a=$(seconds "$proved" "$work/a")
        b=$(seconds "$work/rust" "$work/b")
        cmp "$work/a" "$work/b"
        echo "$what $a $b" | awk '{ printf "%s: proved %s s, plain Rust %s s, proved takes %.2f times as long\n", $1, $2, $3, $2 / $3 }'
    done
done
