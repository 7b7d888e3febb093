#!/bin/sh
# How `msat check TEXT` grows: instructions at four sizes of each shape, up to the greatest that is valid, of the product and of the plain
# program that does the same; what both print is compared byte for byte. The same with `--consensus`, up to a Script of 10,000 bytes. Then
# texts that are read, typed and translated, but are too large, of the product alone.
. "$(dirname "$0")/lib.sh"
wants valgrind rustc
product
plain satisfy_baseline

columns command shape size bytes proved plain
count "$program" check 0
proved=$counted
count "$plain" check 0
row check start 0 1 "$proved" "$counted"
# Rows for the sizes of shapes on standard input, with these words before the text.
valid() {
    while read -r shape sizes; do
        for size in $sizes; do
            text=$(text_of "$shape" "$size")
            "$program" "$@" "$text" >"$work/proved.out"
            "$plain" "$@" "$text" >"$work/plain.out"
            grep -q '^limits' "$work/plain.out" || stop "$shape $size: not valid"
            cmp -s "$work/proved.out" "$work/plain.out" || stop "$shape $size: the outputs differ"
            count "$program" "$@" "$text"
            proved=$counted
            count "$plain" "$@" "$text"
            row "$*" "$shape" "$size" ${#text} "$proved" "$counted"
        done
    done
}

valid check <<'VALID'
chain 12 25 50 100
hashes 6 12 25 49
threshold 8 16 33 67
branches 3 7 14 28
letters 22 44 88 176
VALID
valid check --consensus <<'VALID'
chain 25 50 100 201
threshold 8 16 33 67
lists 2 4 7 14
VALID
while read -r shape reason sizes; do
    for size in $sizes; do
        text=$(text_of "$shape" "$size")
        case $("$program" check "$text") in
        "refused text $reason "*) ;;
        *) stop "$shape $size: not refused by $reason" ;;
        esac
        count "$program" check "$text"
        row "check, refused" "$shape" "$size" ${#text} "$counted" ""
    done
done <<'REFUSED'
threshold Size 100 200 400 800
choices Ops 60 120 240 480
levels Size 28 56 112 224
runs Size 30 60 120 240
REFUSED
finish
