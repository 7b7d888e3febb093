#!/bin/sh
# How `msat tree TEXT` grows: instructions at four sizes of each shape, of the product and of the plain program that does the same, beside those of
# `msat check TEXT`; what both programs print is compared byte for byte. Then thresholds of which one child is wrong, or all but the first are, of the
# product alone: each such child is tried with each letter. `report` is how many bytes `tree` prints.
. "$(dirname "$0")/lib.sh"
wants valgrind rustc
product
plain tree_baseline

columns shape size bytes report tree check plain
# A row for a shape at a size, whose instructions in the plain program are told.
sized() {
    "$program" tree "$text" >"$work/proved.out"
    report=$(wc -c <"$work/proved.out")
    count "$program" tree "$text"
    tree=$counted
    count "$program" check "$text"
    row "$shape" "$size" ${#text} "$report" "$tree" "$counted" "$1"
}
while read -r shape sizes; do
    for size in $sizes; do
        text=$(text_of "$shape" "$size")
        "$program" tree "$text" >"$work/proved.out" || stop "$shape $size: not sane"
        "$plain" "$text" >"$work/plain.out"
        cmp -s "$work/proved.out" "$work/plain.out" || stop "$shape $size: the outputs differ"
        count "$plain" "$text"
        sized "$counted"
    done
done <<'SANE'
chain 12 25 50 100
hashes 6 12 25 49
threshold 8 16 33 67
branches 3 7 14 28
letters 22 44 88 176
SANE
while read -r shape sizes; do
    for size in $sizes; do
        text=$(text_of "$shape" "$size")
        case $("$program" tree "$text" | sed -n '/^refused/p') in
        "refused text Rule ThreshOther at 0") ;;
        *) stop "$shape $size: not refused by ThreshOther" ;;
        esac
        sized ""
    done
done <<'WRONG'
wrong_child 1000 4000 16000
wrong_children 1000 4000 16000 32763
WRONG
finish
