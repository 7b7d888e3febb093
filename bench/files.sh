#!/bin/sh
# How `msat run` grows with run files: instructions of the product and of the plain program that does the same, and of the product the
# milliseconds from start to end, the best of 10 runs, and the greatest resident memory in KiB. First files of four sizes in bytes, each
# filled by one part, then files of four numbers of signatures or witness items. Both programs have to end alike, with status 0 for an
# accepted script and 8 for a refused one. Wants GNU time besides, and a `date` that knows %N.
. "$(dirname "$0")/lib.sh"
wants valgrind rustc /usr/bin/time
product
plain satisfy_baseline

# A run file of SHAPE with COUNT items or signatures, and of BYTES bytes, or of what it comes to where BYTES is 0.
generate() {
    awk -v shape="$1" -v count="$2" -v bytes="$3" '
        # The piece as often as it has room in so many bytes.
        function filled(piece, room,   text) {
            for (text = piece; length(text) < room; ) text = text text
            return substr(text, 1, int(room / length(piece)) * length(piece))
        }
        # So many digits, or as many as give each of the items an even share of the bytes.
        function digits(number, item) { return filled("ab", bytes ? (bytes - 100) / count - item : number) }
        function put(piece) { printf "%s", piece; written += length(piece) }
        BEGIN {
            if (shape == "script") put("{\"script\":\"" filled("51", bytes - 13) "\"")
            else put("{\"script\":\"51\"")
            if (shape == "text") put(",\"unknown\":\"" filled("a", bytes - 28) "\"")
            if (shape == "numbers") put(",\"unknown\":[" filled("0,", bytes - 29) "0]")
            if (shape == "lists") put(",\"unknown\":[" filled("[{}],", bytes - 29) "0]")
            if (shape == "members") for (i = 0; written < bytes - 12; i++) put(sprintf(",\"%06d\":0", i * 7919 % 999983))
            if (shape == "witness") {
                item = "\"" digits(144, 3) "\""
                put(",\"witness\":[" item)
                for (i = 1; i < count; i++) put("," item)
                put("]")
            }
            if (shape == "signatures") {
                put(",\"signatures\":[")
                sig = digits(144, 86)
                for (i = 1; i <= count; i++) put(sprintf("%s{\"key\":\"02%064x\",\"sig\":\"%s\"}", i > 1 ? "," : "", i, sig))
                put("]")
            }
            put("}")
            while (written < bytes) put(" ")
        }' >"$input"
}

# The best of 10 runs, in milliseconds.
best() {
    for _ in 1 2 3 4 5 6 7 8 9 10; do
        from=$(date +%s%N)
        "$program" run <"$input" >/dev/null
        echo $(($(date +%s%N) - from))
    done | sort -n | awk 'NR == 1 { printf "%.1f", $1 / 1000000 }'
}

measure() {
    /usr/bin/time -q -f %M -o "$work/memory" "$program" run <"$input" >"$work/proved.out"
    status=$?
    "$plain" run <"$input" >"$work/plain.out"
    [ $? = "$status" ] || stop "$1 $2: the plain program has another status than $status"
    case $status in
    0) cmp "$work/proved.out" "$work/plain.out" >&2 || stop "$1 $2: the outputs differ" ;;
    8) ;;
    *) stop "$1 $2: status $status" ;;
    esac
    count "$program" run
    proved=$counted
    count "$plain" run
    row run "$1" "$2" "$(wc -c <"$input")" "$proved" "$counted" "$(best)" "$(cat "$work/memory")" "$status"
}

input=$work/file
columns command shape size bytes proved plain milliseconds kib status
echo '{"script":"51"}' >"$input"
measure start 0
while read -r shape number; do
    for bytes in 65536 262144 524288 1048575; do
        generate "$shape" "$number" "$bytes"
        measure "$shape" "$number"
    done
done <<'SIZES'
script 1
witness 2000
signatures 256
text 1
numbers 1
lists 1
members 1
SIZES
while read -r shape numbers; do
    for number in $numbers; do
        generate "$shape" "$number" 0
        measure "$shape of 72 bytes" "$number"
    done
done <<'NUMBERS'
signatures 32 64 128 256
witness 250 500 1000 2000
NUMBERS
finish
