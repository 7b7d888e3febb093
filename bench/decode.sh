#!/bin/sh
# How `msat decode HEX KEY..` grows: instructions for the Scripts of valid texts at four sizes of each shape, up to the greatest, with the
# keys of their `pkh`, for Scripts that can't be read, and for one with 256 keys; of the product and of the plain program that does the
# same. What both print is compared byte for byte.
. "$(dirname "$0")/lib.sh"
wants valgrind rustc
product
plain decode_baseline

# A row for a Script and keys, where both programs print the same with this status.
measure() {
    wanted=$1 shape=$2 size=$3
    shift 3
    "$program" decode "$@" >"$work/proved.out"
    [ $? = "$wanted" ] || stop "$shape $size: msat has another status than $wanted: $(head -c 200 "$work/proved.out")"
    "$plain" "$@" >"$work/plain.out"
    [ $? = "$wanted" ] || stop "$shape $size: the plain program has another status than $wanted"
    cmp "$work/proved.out" "$work/plain.out" >&2 || stop "$shape $size: the outputs differ"
    count "$program" decode "$@"
    proved=$counted
    count "$plain" "$@"
    [ "$wanted" = 0 ] && command=decode || command='decode, no reading'
    row "$command" "$shape" "$size" $((${#1} / 2)) "$proved" "$counted"
}

# The keys of `pkh` in a text, a line each.
hashed_keys() {
    echo "$1" | grep -o 'pkh([0-9a-f]*)' | tr -d 'pkh()'
}

columns command shape size bytes proved plain
measure 0 start 0 51
measure 10 start 0 ac
while read -r shape sizes; do
    for size in $sizes; do
        text=$(text_of "$shape" "$size")
        # shellcheck disable=SC2046
        measure 0 "$shape" "$size" "$("$program" script "$text")" $(hashed_keys "$text")
    done
done <<'SHAPES'
chain 12 25 50 100
hashes 6 12 25 49
threshold 8 16 33 67
branches 3 7 14 28
letters 22 44 88 176
SHAPES
text=$(text_of branches 28)
script=$("$program" script "$text")
# shellcheck disable=SC2046
measure 0 keys 256 "$script" $(awk 'BEGIN { for (i = 1; i <= 228; i++) printf "03%064d\n", i }') $(hashed_keys "$text")
# Repeated instructions that the reader goes over to their beginning: 1, ENDIF, CHECKSIG, BOOLOR, a push and VERIFY.
while read -r shape bytes; do
    for size in 900 1800 3600 10000; do
        length=$((${#bytes} / 2))
        measure 10 "$shape" "$size" "$(awk -v bytes="$bytes" -v count=$((size / length)) 'BEGIN { for (i = 0; i < count; i++) printf "%s", bytes }')"
    done
done <<'SHAPES'
ones 51
ends 68
checks ac
pairs 9b
verified 5169
SHAPES
finish
