#!/bin/sh
# Speed of the readers of smt_ext: nanoseconds a text, beside a sum of the bytes of the same texts, and the ratio of both.
# The crates are copied to a temporary folder, proved and built there. The program runs three times, and the least counts.
set -e
top=$(cd "$(dirname "$0")/.." && pwd)
work=$(mktemp -d)
trap 'rm -rf "$work"' EXIT

mkdir -p "$work/repo/crates/ext_bench/src"
for crate in law_texts law_numbers smt_text smt_bits smt_ext; do
    cp -r "$top/crates/$crate" "$work/repo/crates/$crate"
    rm -rf "$work/repo/crates/$crate/out"
done
cp "$top/bench/ext/main.rt.txt" "$work/repo/crates/ext_bench/src/main.rt"
printf 'law_texts:\nlaw_numbers:\nsmt_text: law_texts\nsmt_bits: law_numbers thiserror\nsmt_ext: law_texts law_numbers smt_text smt_bits jiff jiff_core thiserror\next_bench: smt_bits smt_ext anyhow\n' >"$work/repo/crates.txt"
(cd "$work/repo" && git init -q && cd crates/ext_bench && rt run --jobs 1) >"$work/run1" 2>"$work/log" || {
    grep -E "error\[|no proof|not-proved" "$work/log" >&2
    exit 1
}
for run in 2 3; do
    "$work/repo/crates/ext_bench/out/ext_bench" >"$work/run$run"
done

awk '
    $1 !~ /^(decimal|datetime|duration|IPv4|IPv6)$/ { next }
    !($1 in reading) { order[++kinds] = $1 }
    !($1 in reading) || $2 < reading[$1] { reading[$1] = $2 }
    !($1 in summing) || $3 < summing[$1] { summing[$1] = $3 }
    { texts[$1] = $4; bytes[$1] = $5 / 1000 }
    END {
        for (i = 1; i <= kinds; i++) {
            kind = order[i]
            printf "%-9s %5.1f bytes a text, read in %6.1f ns, summed in %5.1f ns, ratio %5.1f\n", kind, bytes[kind],
                reading[kind] / texts[kind], summing[kind] / texts[kind], reading[kind] / summing[kind]
        }
    }
' "$work/run1" "$work/run2" "$work/run3"
