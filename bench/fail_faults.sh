#!/bin/sh
# Lets each allocation, each read and each write of the proved programs fail in turn, over the examples of every command, and over further
# cases of `check`, `run` and `gen`. A failed allocation has to give status 7 and a failed read status 5, with nothing written; a failed write status 6,
# with just those bytes of the answer that the writes before it took. Where the last call of a kind is granted too, the answer is whole; so
# it may be where a failed allocation is made good: an arena that is refused a piece asks for one of half the size, and a list that is made
# of an iterator does without the room that it wanted first. Those are counted apart.
# For this a small library in C stands before the program's `malloc`, `realloc`, `read` and `write`: it counts their calls from the
# start of the program, fails one of them, and gives 16 bytes a read and takes 10 bytes a write. Then the same by means of the shell
# alone: a full and a closed standard output, and a directory and nothing as standard input. Prints a table, and ends with 1 where a run
# says anything else, or where a program can't be built or run. Wants cc and glibc, and has ./prove build `msat` and `msat-psbt` where
# they aren't built; keeps nothing. Usage: bench/fail_faults.sh
top=$(cd "$(dirname "$0")/.." && pwd)
work=$(mktemp -d) || exit 1
trap 'rm -rf "$work"' EXIT

stop() {
    echo "fail_faults.sh: $1" >&2
    exit 1
}

cat >"$work/fail.c" <<'C'
#include <errno.h>
#include <stdio.h>
#include <stdlib.h>
#include <string.h>
#include <sys/syscall.h>
#include <unistd.h>

extern void *__libc_malloc(size_t size);
extern void *__libc_realloc(void *block, size_t size);

enum kind { ALLOCATION, READ, WRITE, KINDS };
static const char *const names[KINDS] = {"allocation", "read", "write"};
static long calls[KINDS], failing[KINDS];
static size_t refused, next;
static int counting;

__attribute__((constructor)) static void begin(void) {
    const char *name = getenv("FAIL_KIND"), *number = getenv("FAIL_NUMBER");
    for (int kind = 0; name && number && kind < KINDS; kind++)
        if (!strcmp(name, names[kind])) failing[kind] = atol(number);
    counting = 1;
}

__attribute__((destructor)) static void end(void) {
    counting = 0;
    const char *path = getenv("COUNTS");
    FILE *file = path ? fopen(path, "w") : NULL;
    if (!file) return;
    fprintf(file, "%ld %ld %ld %zu %zu\n", calls[ALLOCATION], calls[READ], calls[WRITE], refused, next);
    fclose(file);
}

static int fails(enum kind kind, int error) {
    if (!counting || ++calls[kind] != failing[kind]) return 0;
    errno = error;
    return 1;
}

static size_t least(size_t a, size_t b) { return a < b ? a : b; }

// Whether an allocation fails; then its size is kept, and that of the next one.
static int is_refused(size_t size) {
    if (counting && refused && !next) next = size;
    int is = fails(ALLOCATION, ENOMEM);
    if (is) refused = size;
    return is;
}

void *malloc(size_t size) { return is_refused(size) ? NULL : __libc_malloc(size); }

void *realloc(void *block, size_t size) { return is_refused(size) ? NULL : __libc_realloc(block, size); }

ssize_t read(int file, void *bytes, size_t count) {
    if (file == 0 && fails(READ, EIO)) return -1;
    return syscall(SYS_read, file, bytes, file == 0 ? least(count, 16) : count);
}

ssize_t write(int file, const void *bytes, size_t count) {
    if (file == 1 && fails(WRITE, ENOSPC)) return -1;
    return syscall(SYS_write, file, bytes, file == 1 ? least(count, 10) : count);
}

ssize_t __write(int file, const void *bytes, size_t count) { return write(file, bytes, count); }
C
${CC:-cc} -O2 -shared -fPIC -o "$work/fail.so" "$work/fail.c" || stop "the library that fails calls isn't built"
"$top/prove" || stop "the programs aren't proved and built"
[ "$("$top/msat" gen 30)" = "$(cat "$top/crates/msat/stdout")" ] || stop "gen 30 prints something else"
program=$top/crates/msat/out/msat
wrong=0

# Compares the last run's status and output with what is wanted: a status, and how many bytes of the answer.
compare() {
    head -c "$3" "$work/whole" | cmp -s - "$work/out" && [ "$status" -eq "$2" ] && return
    echo "$name, $1: status $status with $(wc -c <"$work/out") bytes, and not $2 with the first $3 of the answer"
    wrong=$((wrong + 1))
}

# Runs the words over the input of the case with one call of a kind failing.
with_failing() {
    kind=$1 number=$2
    shift 2
    LD_PRELOAD="$work/fail.so" FAIL_KIND=$kind FAIL_NUMBER=$number COUNTS="$work/counts" \
        "$program" "$@" <"$input" >"$work/out" 2>"$work/errors"
    status=$?
}

# The same of a failed allocation: status 7 with nothing written; or the whole answer, where it was made good by asking again for as much or
# less.
compare_allocation() {
    read -r _ _ _ refused again <"$work/counts" || stop "$name: the calls weren't counted"
    if [ "$status" -eq "$answer" ] && [ "$again" -gt 0 ] && [ "$again" -le "$refused" ] && cmp -s "$work/whole" "$work/out"; then
        made_good=$((made_good + 1))
    else
        compare "$1" 7 0
    fi
}

# Fails each of COUNT calls of KIND in turn. Where one fails, the status is WANTED, and the answer's first bytes are written: TAKEN for
# each call before the failing one.
each() {
    kind=$1 count=$2 wanted=$3 taken=$4
    shift 4
    call=1
    while [ "$call" -le "$count" ]; do
        with_failing "$kind" "$call" "$@"
        case $kind in
        allocation) compare_allocation "$kind $call of $count" ;;
        *) compare "$kind $call of $count" "$wanted" $((taken * (call - 1))) ;;
        esac
        call=$((call + 1))
    done
    with_failing "$kind" "$call" "$@"
    compare "with each $kind granted" "$answer" "$length"
}

# One case: its name, the status of its answer, the file on standard input, and the words.
try() {
    name=$1 answer=$2 input=$3 made_good=0
    shift 3
    "$program" "$@" <"$input" >"$work/out" 2>"$work/errors"
    status=$?
    cp "$work/out" "$work/whole"
    length=$(wc -c <"$work/whole")
    compare "with nothing failing" "$answer" "$length"
    with_failing none 0 "$@"
    compare "in short reads and writes" "$answer" "$length"
    read -r allocations reads writes _ <"$work/counts" || stop "$name: the calls weren't counted"
    each allocation "$allocations" 7 0 "$@"
    each read "$reads" 5 0 "$@"
    each write "$writes" 6 10 "$@"
    by_the_shell "$@"
}

# The same with its row of the table.
row() {
    try "$@"
    echo "| $name | $answer, $length bytes | $allocations | $made_good | $reads | $writes |"
}

# The same where standard output is full or closed, and standard input a directory or closed. Words that read nothing give their answer.
by_the_shell() {
    : >"$work/out"
    "$program" "$@" <"$input" >/dev/full 2>"$work/errors"
    status=$?
    compare "to a full device" 6 0
    "$program" "$@" <"$input" >&- 2>"$work/errors"
    status=$?
    compare "to a closed standard output" 6 0
    [ "$reads" -gt 0 ] && wanted=5 shown=0 || wanted=$answer shown=$length
    "$program" "$@" <"$work" >"$work/out" 2>"$work/errors"
    status=$?
    compare "from a directory" "$wanted" "$shown"
    "$program" "$@" <&- >"$work/out" 2>"$work/errors"
    status=$?
    compare "from a closed standard input" "$wanted" "$shown"
}

# Run files that meet each of the interpreter's faults, and accepted ones, a line for each: the status of its answer, the script, and further
# members. (51*3) stands for 515151, A, B and C for keys, P and R for signatures, T and U for pairs of the table; `none` is an empty script.
runs() {
    cat <<'RUNS'
8 (51*10001)
8 51 "witness":["(00*521)"]
8 4d0902(00*521)
8 514c
8 0101
0 006301016851
8 0063616851
8 51(92*202)
0 51(92*201)
8 76
8 6c
8 516351
8 68
8 6351675168 "witness":["02"]
8 0069
8 92 "witness":["0100"]
8 4fb1
8 52b1 "locktime":1
0 050000008000b2
8 020202ac "witness":[""]
8 21Aac "witness":["P"]
0 21Aac "witness":["P"],"signatures":[T]
8 5221A21B21C53ae "witness":["","R","P"],"signatures":[T,U]
8 5121A51ae "witness":["01","P"],"signatures":[T]
8 0115ae
8 5221A51ae
8 (51*1001)
8 5151
8 none "witness":["80"]
3 5
RUNS
}

# The run file of a line.
run_file() {
    echo "$1" | awk '
        function repeat(piece, times,   text, i) { for (i = 0; i < times; i++) text = text piece; return text }
        {
            while (match($0, /\([0-9a-f]*\*[0-9]*\)/)) {
                split(substr($0, RSTART + 1, RLENGTH - 2), part, "*")
                $0 = substr($0, 1, RSTART - 1) repeat(part[1], part[2]) substr($0, RSTART + RLENGTH)
            }
            gsub(/T/, "{\"key\":\"A\",\"sig\":\"P\"}")
            gsub(/U/, "{\"key\":\"C\",\"sig\":\"R\"}")
            gsub(/A/, "02" repeat("01", 32))
            gsub(/B/, "02" repeat("be", 32))
            gsub(/C/, "03" repeat("03", 32))
            gsub(/P/, repeat("aa", 71))
            gsub(/R/, repeat("cc", 70))
            print "{\"script\":\"" ($2 == "none" ? "" : $2) "\"" ($3 ? "," $3 : "") "}"
        }'
}

echo "| Case | Its answer | Allocations | Made good | Reads | Writes |"
echo "|---|---|---|---|---|---|"
for folder in "$top"/examples/*/; do
    [ -e "$folder/words" ] || continue
    words=$(cat "$folder/words")
    [ "$words" != "gen 30" ] || continue
    wanted=$(cat "$folder/status" 2>/dev/null || echo 0)
    source=/dev/null
    for file in assets run plan; do
        [ ! -e "$folder/$file.json" ] || source=$folder/$file.json
    done
    label="\`$words\`, $(basename "$folder")"
    # shellcheck disable=SC2086
    set -- $words
    [ ! -e "$folder/text" ] || set -- "$@" "$(cat "$folder/text")"
    row "$label" "$wanted" "$source" "$@"
    if ! cmp -s "$work/whole" "$folder/report"; then
        echo "$name: another report than the example's"
        wrong=$((wrong + 1))
    fi
done
key=0279be667ef9dcbbac55a06295ce870b07029bfcdb2dce28d959f2815b16f81798
row '`check` of a key' 0 /dev/null check "pk($key)"
row '`check` of a text that is refused' 2 /dev/null check 1
row '`gen 30`' 0 /dev/null gen 30
runs >"$work/runs"
files=0 all_allocations=0 all_made_good=0 all_reads=0 all_writes=0
while read -r status_of_run line; do
    run_file "$status_of_run $line" >"$work/run.json"
    try "run of $line" "$status_of_run" "$work/run.json" run
    files=$((files + 1)) all_allocations=$((all_allocations + allocations)) all_made_good=$((all_made_good + made_good))
    all_reads=$((all_reads + reads)) all_writes=$((all_writes + writes))
done <"$work/runs"
echo "| \`run\`, $files files | 0, 3 or 8 | $all_allocations | $all_made_good | $all_reads | $all_writes |"

# The other program, over the cases of PSBTs.
printf cHNidP8BAAoCAAAAAAAAAAAAAA== >"$work/psbt"
"$top/msat-psbt" hashes <"$work/psbt" || stop "msat-psbt refuses a PSBT without inputs"
program=$top/crates/msat_psbt/out/msat_psbt
for folder in "$top"/examples/psbt/*/; do
    words=$(cat "$folder/words")
    row "\`msat-psbt $words\`, $(basename "$folder")" "$(cat "$folder/status")" "$folder/source" "$words"
    if ! cmp -s "$work/whole" "$folder/report"; then
        echo "$name: another report than the example's"
        wrong=$((wrong + 1))
    fi
done
row '`msat-psbt` without words' 1 /dev/null
[ "$wrong" -eq 0 ] || stop "$wrong runs say something else"
