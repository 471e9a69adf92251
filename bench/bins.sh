#!/bin/sh
# Nanoseconds a bin of the arithmetic encoder and decoder on four million context bins, beside the same loops in plain Rust.
# Wants rt and rustc. The program is built in a temporary repository, over a copy of this one's crates.
set -eu
here=$(cd "$(dirname "$0")" && pwd)
work=$(mktemp -d)
trap 'rm -rf "$work"' EXIT
mkdir -p "$work/crates/bins/src"
for name in bit_texts exp_golomb cabac_interval cabac_engine; do
    (cd "$here/../crates" && tar cf - --exclude=out "$name") | tar xf - -C "$work/crates"
done
grep -E '^(bit_texts|exp_golomb|cabac_interval|cabac_engine):' "$here/../crates.txt" >"$work/crates.txt"
echo 'bins: bit_texts exp_golomb cabac_interval cabac_engine anyhow' >>"$work/crates.txt"
cp "$here/bins/main.rt.txt" "$work/crates/bins/src/main.rt"
for name in encode decode; do
    mkdir -p "$work/crates/bins/proofs/$name"
    cp "$here/bins/$name.antt.txt" "$work/crates/bins/proofs/$name/Invariants.antt"
done
cp "$here/bins/plain.rs" "$work/plain.rs"
# the two tables, as the crate has them
sed -n '/^const RANGE_LPS/,/^];/p; /^const TRANS_LPS/,/^];/p' "$here/../crates/cabac_interval/src/tables.rt" >"$work/tables.rs"
# for the processor that rt builds for
rustc --edition 2024 -C opt-level=3 -C target-cpu=x86-64-v2 -o "$work/plain" "$work/plain.rs"
cd "$work/crates/bins"
: >"$work/times"
for _ in 1 2 3; do
    rt run 2>"$work/rattle.err" | grep '^rattle ' >>"$work/times" || { cat "$work/rattle.err"; exit 1; }
    "$work/plain" >>"$work/times"
done
# the least of all rounds of each
awk '
    { if (!($1 in e) || $2 < e[$1]) e[$1] = $2; if (!($1 in d) || $3 < d[$1]) d[$1] = $3; size[$1] = $4; ok[$1] = $5 }
    END {
        n = 4000000
        for (k in e) printf "%-6s encoder %6.2f ns a bin, decoder %6.2f ns a bin, %d bytes, same bins: %s\n", k, e[k] / n, d[k] / n, size[k], ok[k]
        printf "ratio  encoder %.2f, decoder %.2f\n", e["rattle"] / e["plain"], d["rattle"] / d["plain"]
    }' "$work/times"
