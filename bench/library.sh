#!/bin/sh
# What `satisfy` costs by a call of the library: instructions of a call of msat_answer and of msat_witness from C, and of msat.satisfy
# and msat.witness from Python, each by the difference of 40 and 20 calls, beside those of the program, with its start-up, for the same.
. "$(dirname "$0")/lib.sh"
wants valgrind gcc python3
# The program itself, where python3 is a script that starts it.
python=$(python3 -c "import sys; print(sys.executable)")
product
"$top/install" "$work/prefix" >"$work/log" 2>&1 || stop "the library isn't installed"
export PYTHONPATH="$work/prefix/lib/python3/dist-packages" PYTHONDONTWRITEBYTECODE=1

cat >"$work/calls.c" <<'C'
/* Usage: calls KIND COUNT TEXT FILE */
#include <msat.h>
#include <stdio.h>
#include <stdlib.h>
#include <string.h>
int main(int argc, char **argv) {
    static uint8_t words[1 << 17], file[1 << 20], report[1 << 20];
    static size_t lengths[1000];
    size_t text_len = argc > 4 ? strlen(argv[3]) : 0, needed, count;
    FILE *from = argc > 4 ? fopen(argv[4], "rb") : NULL;
    if (!from)
        return 99;
    size_t file_len = fread(file, 1, sizeof file, from);
    memcpy(words, "satisfy", 8), memcpy(words + 8, argv[3], text_len + 1);
    struct msat_reason reason;
    for (long i = atol(argv[2]); i > 0; i--)
        if (argv[1][0] == 'a' ? msat_answer(2, words, text_len + 9, file, file_len, report, sizeof report, &needed)
                              : msat_witness(false, false, words + 8, text_len, file, file_len, report, sizeof report, &needed, lengths,
                                             1000, &count, &reason))
            return 98;
    return 0;
}
C
cat >"$work/calls.py" <<'PYTHON'
import pathlib, sys
import msat

kind, count, text, file = sys.argv[1:]
assets = pathlib.Path(file).read_bytes()
call = {"answer": msat.satisfy, "witness": msat.witness}[kind]
for _ in range(int(count)):
    call(text, assets)
PYTHON
gcc -O2 -DNDEBUG "$work/calls.c" -I"$work/prefix/include" -L"$work/prefix/lib" -Wl,-rpath,"$work/prefix/lib" -lmsat -o "$work/calls" || stop "calls.c isn't built"

# Sets `each` to the instructions of a call.
call() {
    program=$1
    shift
    count $program "$1" 40 "$2" "$3"
    more=$counted
    count $program "$1" 20 "$2" "$3"
    each=$(((more - counted) / 20))
}

product=$program
columns shape bytes program answer witness python_satisfy python_witness
measure() {
    input=$work/assets
    "$product" satisfy "$text" <"$input" >"$work/report" || stop "$1: there is no satisfaction"
    for kind in answer witness; do
        "$work/calls" $kind 1 "$text" "$input" || stop "$1: a call from C doesn't end with 0"
        $python "$work/calls.py" $kind 1 "$text" "$input" || stop "$1: a call from Python doesn't end with 0"
    done
    count "$product" satisfy "$text"
    whole=$counted
    call "$work/calls" answer "$text" "$input" && by_answer=$each
    call "$work/calls" witness "$text" "$input" && by_witness=$each
    call "$python $work/calls.py" answer "$text" "$input" && by_satisfy=$each
    call "$python $work/calls.py" witness "$text" "$input" && by_items=$each
    row "$1" $((${#text} + $(wc -c <"$input"))) "$whole" "$by_answer" "$by_witness" "$by_satisfy" "$by_items"
}

text=$(cat "$top/examples/key_or_later_key/text")
cp "$top/examples/key_or_later_key/assets.json" "$work/assets"
measure example
for count in 10 60; do
    text=$(text_of threshold $count)
    awk -v count=$count '
        function repeat(piece, times,   text, i) { for (i = 0; i < times; i++) text = text piece; return text }
        BEGIN {
            printf "{\"signatures\":["
            for (i = 1; i <= count; i++) printf "%s{\"key\":\"02%s\",\"sig\":\"%s\"}", (i > 1 ? "," : ""), repeat(sprintf("%04x", i), 16), repeat("aa", 70 + i % 4)
            printf "]}"
        }' >"$work/assets"
    measure "threshold of $count"
done
finish
