#!/usr/bin/env bash
# Blocks per second, of the proved codec and of the same codec in plain Rust, one after the other on the same input.
# Needs crates/blockbench/out/blockbench (rt run in crates/blockbench) and rustc. Usage: bench/run.sh [COUNT]
set -eu
cd "$(dirname "$0")/.."
count=${1:-2000000}
work=$(mktemp -d)
trap 'rm -r "$work"' EXIT
rustc -O --edition 2024 -o "$work/rust" bench/rust.rs
proved=crates/blockbench/out/blockbench
for what in write read bytes; do
    echo "$what 100000" >"$work/in"
    "$proved" <"$work/in" >"$work/a"
    "$work/rust" <"$work/in" >"$work/b"
    cmp "$work/a" "$work/b"
done
echo "both give the same bytes and read the same (100000 blocks)"
seconds() {
    local from to
    from=$(date +%s%N)
    "$1" <"$work/in" >/dev/null
    to=$(date +%s%N)
    echo "$from $to" | awk '{ printf "%.3f", ($2 - $1) / 1e9 }'
}
for what in write read; do
    echo "$what $count" >"$work/in"
    for turn in 1 2 3; do
        a=$(seconds "$proved")
        b=$(seconds "$work/rust")
        echo "$what $count $a $b" | awk '{ printf "%s: proved %.0f blocks/s, plain Rust %.0f blocks/s, proved/plain %.2f\n", $1, $2 / $3, $2 / $4, $4 / $3 }'
    done
done
