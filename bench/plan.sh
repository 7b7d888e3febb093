#!/bin/sh
# What `msat plan TEXT` costs beside `msat satisfy TEXT`, each with a file of 256 keys: instructions at four sizes of each shape, up to the
# greatest that is sane. The keys of the text stand last in both files. What both print is compared: the weight is the same. Beside them stands the
# plan by the plain program, which prints the same bytes.
. "$(dirname "$0")/lib.sh"
wants valgrind python3 rustc cmp
product
plain satisfy_baseline

# The file of a text for one of the commands: 256 keys, those of the text last, with signatures of 72 bytes.
file_of() {
    printf '%s' "$2" | grep -oE '0[23][0-9a-f]{64}' | python3 -c '
import json, sys
own = list(dict.fromkeys(sys.stdin.read().split()))
keys = ["03%064x" % it for it in range(256 - len(own))] + own
print(json.dumps({"keys": [{"key": key, "length": 72} for key in keys]} if sys.argv[1] == "plan"
                 else {"signatures": [{"key": key, "sig": 72 * "aa"} for key in keys]}))' "$1"
}

measure() {
    file_of plan "$2" >"$work/plan.json"
    file_of satisfy "$2" >"$work/assets.json"
    planned=$("$program" plan "$2" <"$work/plan.json" | sed -n 's/^weight at most //p')
    satisfied=$("$program" satisfy "$2" <"$work/assets.json" | sed -n 's/^replay .* weight \([0-9]*\) .*/\1/p')
    [ -n "$planned" ] && [ "$planned" = "$satisfied" ] || stop "$1 $3: the weights are $planned and $satisfied"
    "$program" plan "$2" <"$work/plan.json" >"$work/proved.out"
    "$plain" plan "$2" <"$work/plan.json" >"$work/plain.out" || stop "$1 $3: the plain program has no plan"
    cmp "$work/proved.out" "$work/plain.out" >&2 || stop "$1 $3: the outputs differ"
    input=$work/plan.json
    count "$program" plan "$2"
    planned=$counted
    count "$plain" plan "$2"
    by_plain=$counted
    input=$work/assets.json
    count "$program" satisfy "$2"
    row plan "$1" "$3" ${#2} "$planned" "$counted" "$by_plain"
    input=/dev/null
}

columns command shape size bytes plan satisfy plain
while read -r shape sizes; do
    for size in $sizes; do
        measure "$shape" "$(text_of "$shape" "$size")" "$size"
    done
done <<'SHAPES'
chain 12 25 50 100
threshold 8 16 33 67
branches 3 7 14 28
multi 2 5 10 20
SHAPES
finish
