#!/bin/sh
# Speed of the operators of smt_bits at 64 and 128 bits, beside the same loops over u64 and u128 in Rust,
# which are left out where rustc is missing. The crate and the one below it are copied to a temporary folder, proved and
# built there.
set -e
top=$(cd "$(dirname "$0")/.." && pwd)
work=$(mktemp -d)
trap 'rm -rf "$work"' EXIT

mkdir -p "$work/repo/crates/bits_bench/src"
for crate in law_numbers smt_bits; do
    cp -r "$top/crates/$crate" "$work/repo/crates/$crate"
    rm -rf "$work/repo/crates/$crate/out"
done
cp "$top/bench/bits/main.rt.txt" "$work/repo/crates/bits_bench/src/main.rt"
printf 'law_numbers:\nsmt_bits: law_numbers thiserror\nbits_bench: smt_bits anyhow\n' >"$work/repo/crates.txt"
(cd "$work/repo" && git init -q && cd crates/bits_bench && rt run --jobs 1) >"$work/proved" 2>"$work/log" || {
    grep -E "error\[|no proof|not-proved" "$work/log" >&2
    exit 1
}

if command -v rustc >/dev/null; then
    rustc --edition 2024 -O -o "$work/plain" "$top/bench/bits/plain.rs"
    "$work/plain" >"$work/rust"
else
    : >"$work/rust"
fi

awk -v rust="$work/rust" '
    FILENAME == rust { time[$1, $2] = $3; sum[$1, $2] = $5; next }
    $1 ~ /^(add|mul|udiv|sdiv|shl|slt)$/ {
        line = sprintf("%-5s %4d bits %8.1f million calls a second", $1, $2, 1000 * $4 / $3)
        if (($1, $2) in time) {
            line = line sprintf(", in Rust %8.1f, ratio %5.2f", 1000 * $4 / time[$1, $2], $3 / time[$1, $2])
            if (sum[$1, $2] != $5) line = line ", OTHER ANSWERS"
        }
        print line
    }
' "$work/rust" "$work/proved"
