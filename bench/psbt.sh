#!/bin/sh
# How `msat-psbt finalize --unverified` grows with the inputs of a PSBT: instructions for 1,000 and 2,000 inputs of 2-of-3, with and without derivations, with
# previous transactions, in version 2 and in P2SH, and for as many of P2WPKH, by itself and in P2SH; of the product and of the plain program that does
# the same. What both write is compared byte for byte. What `finalize` takes for good signatures besides, a judgement. And how `msat-psbt combine` grows
# with its lines, for 100 and 200 signers. Ends with 1 where a judgement takes more than 2,250,000 instructions, `finalize --unverified` of 2-of-3 takes more than 1.5 times the instructions of the plain one, start left out, or any more than 2.1 times as many for twice the inputs, or
# `combine` more than 2.2 times as many for twice the lines.
. "$(dirname "$0")/lib.sh"
wants valgrind rustc python3
program=$top/crates/msat_psbt/out/msat_psbt
"$top/prove" msat-psbt || stop "msat-psbt isn't proved and built"
plain psbt_baseline
input=$work/psbt

# A row for a shape with so many inputs, where both programs write the same.
measure() {
    shape=$1 size=$2
    "$top/bench/psbt_sources" "$shape" "$size" >"$input" || stop "$shape $size: no PSBT"
    "$program" finalize --unverified <"$input" >"$work/proved.out" || stop "$shape $size: msat-psbt has another status than 0: $(head -c 200 "$work/proved.out")"
    "$plain" <"$input" >"$work/plain.out" || stop "$shape $size: the plain program has another status than 0"
    cmp "$work/proved.out" "$work/plain.out" >&2 || stop "$shape $size: the outputs differ"
    count "$program" finalize --unverified
    proved=$counted
    count "$plain"
    row "finalize --unverified" "$shape" "$size" "$(wc -c <"$input")" "$proved" "$counted"
}

# A row for so many inputs with two good signatures each, which are judged.
judged() {
    size=$1
    "$top/bench/psbt_sources" signed "$size" >"$input" || stop "$size signed: no PSBT"
    "$program" finalize <"$input" >"$work/proved.out" || stop "$size signed: msat-psbt has another status than 0: $(head -c 200 "$work/proved.out")"
    "$program" finalize --unverified <"$input" | cmp - "$work/proved.out" >&2 || stop "$size signed: the PSBTs differ"
    count "$program" finalize
    row finalize signed "$size" "$(wc -c <"$input")" "$counted" ""
}

# A row for so many lines to `combine`, beside which no plain program stands.
combined() {
    size=$1
    "$top/bench/psbt_sources" signers "$size" >"$input" || stop "$size signers: no PSBTs"
    "$program" combine <"$input" >"$work/proved.out" || stop "$size signers: msat-psbt has another status than 0: $(head -c 200 "$work/proved.out")"
    count "$program" combine
    row combine signers "$size" "$(wc -c <"$input")" "$counted" ""
}

columns command shape size bytes proved plain
measure two_of_three 0
for shape in two_of_three bare previous later nested key_hash nested_key_hash; do
    measure "$shape" 1000
    measure "$shape" 2000
done
measure signed 50
judged 50
combined 100
combined 200
finish
awk -F'\t' '
    NR == 1 { next }
    $3 == 0 { start = $5; plain_start = $6; next }
    $1 == "combine" { if ($3 == 200) { times = ($5 - start) / lines; printf "combine: %.2f times the instructions for twice the lines\n", times; over = over || times > 2.2 }; lines = $5 - start; next }
    $1 == "finalize" { each = ($5 - start - proved) / (2 * $3); printf "%s %d: %d instructions a judgement\n", $2, $3, each; over = over || each > 2250000; next }
    { proved = $5 - start; plain = $6 - plain_start; times = proved / plain; printf "%s %d: %.2f times the plain program", $2, $3, times; over = over || (times > 1.5 && $2 !~ /key_hash/) }
    $3 == 1000 { half = proved }
    $3 == 2000 { printf ", %.2f times those of half the inputs", proved / half; over = over || proved / half > 2.1 }
    { print "" }
    END { exit over }' "$work/rows" || stop "over a bar"
