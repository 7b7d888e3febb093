#!/bin/sh
# How `msat script TEXT` grows with texts that are read whole and then refused by a `)` at their end: instructions at four sizes of each shape,
# of the product and of the plain program that does `check`, which refuses them at the same place.
. "$(dirname "$0")/lib.sh"
wants valgrind rustc
product
plain check_baseline

measure() {
    [ "$("$program" script "$2")" = "refused text Syntax at $((${#2} - 1))" ] || stop "$1: not read to its end"
    count "$program" script "$2"
    proved=$counted
    count "$plain" "$2"
    row script "$1" "$3" ${#2} "$proved" "$counted"
}

columns command shape size bytes proved plain
measure start '0)' 0
while read -r shape sizes; do
    for size in $sizes; do
        measure "$shape" "$(text_of "$shape" "$size"))" "$size"
    done
done <<'SHAPES'
threshold 110 220 440 880
levels 28 56 112 224
multi 120 240 480 960
runs 30 60 120 240
SHAPES
finish
