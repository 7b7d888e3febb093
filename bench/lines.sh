#!/bin/sh
# What a question costs in `msat lines`: instructions of a line by the difference of 2,000 and 1,000 lines, of the product and of the plain
# program that does the same, beside those of a call of msat_answer from C for the same words and source, by the difference of 40 and 20
# calls; and how many lines a second each answers, of 200,000 on one processor. What both print is compared byte for byte.
. "$(dirname "$0")/lib.sh"
wants valgrind rustc gcc python3 taskset
product
plain lines_baseline
"$top/install" "$work/prefix" >"$work/log" 2>&1 || stop "the library isn't installed"

cat >"$work/calls.c" <<'C'
/* Usage: calls COUNT WORD.., with the source on standard input */
#include <msat.h>
#include <stdio.h>
#include <stdlib.h>
#include <string.h>
int main(int argc, char **argv) {
    static char words[1 << 17], source[1 << 20], report[1 << 20];
    size_t length = 0, needed, source_len = fread(source, 1, sizeof source, stdin);
    for (int i = 2; i < argc; i++)
        memcpy(words + length, argv[i], strlen(argv[i]) + 1), length += strlen(argv[i]) + 1;
    for (long i = atol(argv[1]); i > 0; i--)
        if (msat_answer(argc - 2, words, length, source, source_len, report, sizeof report, &needed))
            return 98;
    return 0;
}
C
gcc -O2 -DNDEBUG "$work/calls.c" -I"$work/prefix/include" -L"$work/prefix/lib" -Wl,-rpath,"$work/prefix/lib" -lmsat -o "$work/calls" || stop "calls.c isn't built"

# Puts so many lines of a question into a file.
questions() {
    python3 -c 'import json, sys; line = json.dumps({"id": 1, "words": sys.argv[3:], "source": sys.stdin.read()}) + "\n"; open(sys.argv[2], "w").writelines(line for _ in range(int(sys.argv[1])))' "$@" <"$work/source"
}

# Sets `each` to the instructions of one more, from 1,000 to 2,000 lines.
a_line() {
    input=$work/two && count "$@" && more=$counted
    input=$work/one && count "$@"
    each=$(((more - counted) / 1000))
}

# Sets `rate` to the lines a second, of 200,000 on one processor.
rate() {
    begun=$(date +%s%N)
    taskset -c 0 "$@" <"$work/many" >/dev/null || stop "$1 fails"
    rate=$((200000 * 1000000000 / ($(date +%s%N) - begun)))
}

columns command bytes call proved plain proved_rate plain_rate
measure() {
    questions 1000 "$work/one" "$@"
    questions 2000 "$work/two" "$@"
    questions 200000 "$work/many" "$@"
    "$program" lines <"$work/one" >"$work/proved.out" || stop "$1: msat lines fails"
    "$plain" <"$work/one" >"$work/plain.out" || stop "$1: the plain program fails"
    cmp "$work/proved.out" "$work/plain.out" >&2 || stop "$1: the outputs differ"
    input=$work/source
    count "$work/calls" 40 "$@" && more=$counted
    count "$work/calls" 20 "$@"
    call=$(((more - counted) / 20))
    a_line "$program" lines && proved=$each
    a_line "$plain" && plainly=$each
    rate "$program" lines && proved_rate=$rate
    rate "$plain"
    row "$1" "$(($(wc -c <"$work/one") / 1000))" "$call" "$proved" "$plainly" "$proved_rate" "$rate"
}

: >"$work/source"
text=$(cat "$top/examples/key_or_later_key/text")
measure script "$text"
measure check "$text"
measure decode "$("$program" script "$text")" "$(echo "$text" | grep -o '02[0-9a-f]*' | tail -1)"
cp "$top/examples/key_or_later_key/assets.json" "$work/source"
measure satisfy "$text"
finish
