#!/bin/sh
# What `msat audit TEXT` costs: instructions at four sizes of each shape, up to the greatest that is valid. Its run file has the satisfaction
# that `satisfy --malleable` finds. Beside it `msat run` with the same file, the plain program's run of it, and `msat check TEXT`, since an
# audit reads and tests the text too.
. "$(dirname "$0")/lib.sh"
wants valgrind rustc python3
product
plain satisfy_baseline

# An asset file with a signature of each key of a text, and these preimages.
assets() {
    printf '%s' "$1" | grep -oE '0[23][0-9a-f]{64}' | python3 -c '
import json, sys
keys = dict.fromkeys(sys.stdin.read().split())
preimages = ["%04x" % it * 16 for it in range(1, int(sys.argv[1]) + 1)]
print(json.dumps({"signatures": [{"key": key, "sig": 72 * "aa"} for key in keys], "preimages": preimages}))' "$2" >"$work/assets.json"
}

# The run file of the report of `satisfy` on standard input, with the signatures of the asset file.
run_file() {
    python3 -c '
import json, sys
lines = [line.split() for line in sys.stdin]
script = next(line[1] for line in lines if line[0] == "script")
items = ["" if line[1] == "-" else line[1] for line in lines if line[0] == "item"]
print(json.dumps({"script": script, "witness": items, "signatures": json.load(open(sys.argv[1]))["signatures"]}))' "$work/assets.json"
}

measure() {
    "$program" satisfy --malleable "$2" <"$work/assets.json" | run_file >"$work/run.json" || stop "$1 $3: no satisfaction"
    "$program" audit "$2" <"$work/run.json" | grep -qx 'canonical yes' || stop "$1 $3: no canonical audit"
    input=$work/run.json
    count "$program" audit "$2"
    audit=$counted
    count "$program" run
    run=$counted
    count "$plain" run
    plain_run=$counted
    input=/dev/null
    count "$program" check "$2"
    row audit "$1" "$3" ${#2} "$audit" "$run" "$plain_run" "$counted"
}

columns command shape size bytes audit run plain_run check
while read -r shape sizes; do
    for size in $sizes; do
        case $shape in
        hashes)
            assets '' $((size * 256 / 50))
            "$plain" fragments <"$work/assets.json" >"$work/fragments" || stop "$shape $size: no fragments"
            input=$work/fragments
            text=$(text_of "$shape" "$size")
            assets "$text" $((size * 256 / 50))
            ;;
        *)
            text=$(text_of "$shape" "$size")
            assets "$text" 0
            ;;
        esac
        measure "$shape" "$text" "$size"
    done
done <<'SHAPES'
chain 12 25 50 99
hashes 6 12 25 50
threshold 8 16 33 67
branches 3 7 14 28
letters 22 44 88 176
SHAPES
finish
