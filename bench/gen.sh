#!/bin/sh
# How `msat gen N` grows: instructions of the product, at every fifth N.
. "$(dirname "$0")/lib.sh"
wants valgrind
product
columns command shape size bytes proved plain
for size in 1 5 10 15 20 25 30; do
    count "$program" gen "$size"
    row gen children "$size" "" "$counted" ""
done
finish
