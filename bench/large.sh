#!/bin/sh
# What the largest texts cost: instructions, start-up included, and the most bytes of heap at once (valgrind's massif), of texts near
# 65,536 bytes that are refused, and of 100 keys joined by `and_v`; of the product alone.
. "$(dirname "$0")/lib.sh"
wants valgrind
product

# Prints the text of a shape.
large_text() {
    awk -v shape="$1" '
        function repeat(piece, times,   text, i) { for (i = 0; i < times; i++) text = text piece; return text }
        function key() { return "02" repeat(sprintf("%04x", ++last), 16) }
        BEGIN {
            if (shape == "keys of a chain") {
                for (i = 1; i < 100; i++) printf "and_v(v:pk(%s),", key()
                printf "pk(%s)%s", key(), repeat(")", 99)
            }
            if (shape == "letters a and n") printf "thresh(1,0%s)", repeat(",a" repeat("n", 249) ":0", 256)
            if (shape == "letters t, l and u") printf "thresh(1,0%s)", repeat("," repeat("tlu", 83) "t:0", 256)
            if (shape == "children a:0") printf "thresh(1,0%s)", repeat(",a:0", 16381)
            if (shape == "children s:pk(K)") {
                printf "thresh(1,pk(%s)", key()
                for (i = 0; i < 894; i++) printf ",s:pk(%s)", key()
                printf ")"
            }
            if (shape == "keys of a multi") {
                printf "multi(1"
                for (i = 0; i < 976; i++) printf ",%s", key()
                printf ")"
            }
        }'
}

# Sets `heap` to the most bytes of heap that a command has at once.
heap_of() {
    valgrind --tool=massif --massif-out-file="$work/massif" "$@" >"$work/out" 2>&1 </dev/null
    heap=$(sed -n 's/^mem_heap_B=//p' "$work/massif" | sort -n | tail -1)
    [ -n "$heap" ] || stop "valgrind gives no heap of: $(echo "$*" | head -c 200)"
}

columns command shape bytes answer instructions heap
while IFS='|' read -r command shape answer; do
    text=$(large_text "$shape")
    case $("$program" "$command" "$text") in
    "$answer"*) ;;
    *) stop "$shape: another answer than $answer" ;;
    esac
    count "$program" "$command" "$text"
    heap_of "$program" "$command" "$text"
    row "$command" "$shape" ${#text} "$answer" "$counted" "$heap"
done <<'SHAPES'
script|keys of a chain|21
check|letters a and n|refused text Size
check|letters t, l and u|refused text Rule
check|children a:0|refused text Size
check|children s:pk(K)|refused text Size
check|keys of a multi|refused text Rule
SHAPES
finish
