#!/bin/sh
# How `msat satisfy TEXT` and `msat satisfy --malleable TEXT` grow: instructions at four sizes of each shape, up to the greatest that is valid,
# of the product and of the plain program that does the same; what both print is compared byte for byte. A hash fragment has four counted
# opcodes, so 50 of them and a key have the 201 that a valid text may have.
. "$(dirname "$0")/lib.sh"
wants valgrind rustc
product
plain satisfy_baseline

# An asset file with this many signatures, of 70 to 73 bytes, and preimages. No two keys or preimages are the same.
assets() {
    awk -v signatures="$1" -v preimages="$2" '
        function repeat(piece, times,   text, i) { for (i = 0; i < times; i++) text = text piece; return text }
        function value(number) { return repeat(sprintf("%04x", number), 16) }
        BEGIN {
            printf "{\"signatures\":["
            for (i = 1; i <= signatures; i++) printf "%s{\"key\":\"02%s\",\"sig\":\"%s\"}", (i > 1 ? "," : ""), value(i), repeat("aa", 70 + i % 4)
            printf "],\"preimages\":["
            for (i = 1; i <= preimages; i++) printf "%s\"%s\"", (i > 1 ? "," : ""), value(i)
            printf "]}"
        }' >"$work/assets"
}

# A row for the words `satisfy` with these options and a text, where both programs print the same with this status.
measure() {
    wanted=$1 shape=$2 size=$3
    shift 3
    input=$work/assets
    "$program" satisfy "$@" <"$input" >"$work/proved.out"
    [ $? = "$wanted" ] || stop "$shape $size: msat has another status than $wanted: $(head -c 200 "$work/proved.out")"
    "$plain" "$@" <"$input" >"$work/plain.out"
    [ $? = "$wanted" ] || stop "$shape $size: the plain program has another status than $wanted"
    cmp "$work/proved.out" "$work/plain.out" >&2 || stop "$shape $size: the outputs differ"
    count "$program" satisfy "$@"
    proved=$counted
    count "$plain" "$@"
    row "satisfy${2:+ --malleable}" "$shape" "$size" $((${#text} + $(wc -c <"$input"))) "$proved" "$counted"
}

columns command shape size bytes proved plain
for option in '' --malleable; do
    echo '{}' >"$work/assets"
    text=0
    measure 4 start 0 $option "$text"
    while read -r shape sizes; do
        for size in $sizes; do
            case $shape in
            hashes) assets 1 $((size * 256 / 50)) ;;
            letters) assets 40 0 ;;
            *) assets "$size" 0 ;;
            esac
            "$plain" fragments <"$work/assets" >"$work/fragments" || stop "$shape $size: no fragments"
            input=$work/fragments
            text=$(text_of "$shape" "$size")
            measure 0 "$shape" "$size" $option "$text"
        done
    done <<'SHAPES'
chain 1 12 25 50 99
hashes 6 12 25 50
threshold 8 16 33 67
branches 3 7 14 28
letters 22 44 88 176
SHAPES
done
finish
