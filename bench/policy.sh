#!/bin/sh
# How `msat policy TEXT` grows: instructions at four sizes of each shape, up to the greatest that is sane, of the product and of the plain
# program that does the same; what both print is compared byte for byte.
. "$(dirname "$0")/lib.sh"
wants valgrind rustc
product
plain policy_baseline

measure() {
    "$program" policy "$2" >"$work/proved.out"
    "$plain" "$2" >"$work/plain.out"
    grep -q '^keys' "$work/plain.out" || stop "$1 $3: not sane"
    cmp -s "$work/proved.out" "$work/plain.out" || stop "$1 $3: the outputs differ"
    count "$program" policy "$2"
    proved=$counted
    count "$plain" "$2"
    row policy "$1" "$3" ${#2} "$proved" "$counted"
}

columns command shape size bytes proved plain
measure start 0 0
while read -r shape sizes; do
    for size in $sizes; do
        measure "$shape" "$(text_of "$shape" "$size")" "$size"
    done
done <<'SHAPES'
chain 12 25 50 100
hashes 6 12 25 49
threshold 8 16 33 67
branches 3 7 14 28
letters 22 44 88 176
SHAPES
finish
