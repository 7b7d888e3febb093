# What the scripts beside it share. Each begins with: . "$(dirname "$0")/lib.sh"
# It measures the product, as ./msat runs it, beside plain programs in Rust (*_baseline.rs): instructions, as callgrind counts
# them. Raw rows go to bench/results/NAME.tsv, once the script has come to its end; bench/plot draws them. What fails ends the script
# with a message and status 1, and leaves the rows that were there.
set -u
top=$(cd "$(dirname "$0")/.." && pwd) || exit 1
name=$(basename "$0" .sh)
work=$(mktemp -d) || exit 1
trap 'rm -rf "$work"' EXIT
# LLVM builds the product.
unset RT_BACKEND
input=/dev/null

stop() {
    echo "bench/$name.sh: $*" >&2
    exit 1
}

# Stops where one of these commands is missing.
wants() {
    for command in "$@"; do
        command -v "$command" >/dev/null || stop "there is no command $command"
    done
}

# Sets `program` to the product, which is proved and built where it isn't.
product() {
    "$top/prove" msat || stop "msat isn't proved and built"
    program=$top/crates/msat/out/msat
}

# Sets `plain` to the plain program of a baseline, at the level of optimization and for the processor that rattle compiles for.
plain() {
    plain=$work/$1
    rustc --edition 2021 -C opt-level=3 -C target-cpu=x86-64-v2 -o "$plain" "$top/bench/$1.rs" || stop "$1 isn't built"
}

# Sets `program` to a small proved program over these crates and those below them, whose main.rt stands on standard input. It is built as
# the product is, with what crates.txt says of the product.
small_program() {
    mkdir -p "$work/crates/$1/src"
    cat >"$work/crates/$1/src/main.rt"
    cp "$top/HANDLES" "$work"
    awk -F: -v crates="$2" '
        function mark(name,   parts, count, i) {
            if (name in needed) return
            needed[name]
            count = split(uses[name], parts, " ")
            for (i = 1; i <= count; i++) if (parts[i] in uses) mark(parts[i])
        }
        /^[a-z]/ { split($1, head, " "); line[++rows] = $0; of[rows] = head[1]; uses[head[1]] = $2 }
        END {
            count = split(crates, given, " ")
            for (i = 1; i <= count; i++) mark(given[i])
            for (i = 1; i <= rows; i++) if (of[i] in needed) print line[i]
        }' "$top/crates.txt" >"$work/crates.txt"
    for crate in $(sed 's/[ :].*//' "$work/crates.txt"); do
        cp -r "$top/crates/$crate" "$work/crates/"
    done
    flags=$(sed -n 's/^msat\( [^:]*\)\{0,1\}:.*/\1/p' "$top/crates.txt")
    echo "$1$flags: $2" >>"$work/crates.txt"
    program=$work/crates/$1/out/$1
    (cd "$work/crates/$1" && rt run -- 0 0) >"$work/log" 2>&1
    [ -x "$program" ] || { cat "$work/log" >&2 && stop "$1 isn't proved and built"; }
}

# Sets `counted` to the instructions of a command, with the file `input` on its standard input.
count() {
    counted=$(valgrind --tool=callgrind --callgrind-out-file=/dev/null "$@" 2>&1 >/dev/null <"$input" | sed -n 's/.*Collected : //p')
    case $counted in
    '' | *[!0-9]*) stop "valgrind gives no count of: $(echo "$*" | head -c 200)" ;;
    esac
}

# Opens the rows with these columns, adds a row, and puts the rows in their place.
columns() {
    row "$@"
}

row() {
    (IFS='	' && echo "$*") | tee -a "$work/rows"
}

finish() {
    mkdir -p "$top/bench/results"
    cp "$work/rows" "$top/bench/results/$name.tsv" || stop "the rows can't be written"
}

# Prints a text of SHAPE with COUNT keys, children, levels or letters. Its keys are 02 and 32 bytes, one after the other, and no two are the
# same. Hash fragments are every fifth of those on standard input, a line each, or of made up values where there are none.
text_of() {
    awk -v shape="$1" -v count="$2" '
        function repeat(piece, times,   text, i) { for (i = 0; i < times; i++) text = text piece; return text }
        function value() { return repeat(sprintf("%04x", ++last), 16) }
        function key() { return "02" value() }
        function keys(number,   text, i) { for (i = 0; i < number; i++) text = text "," key(); return text }
        function hash(i) { return 5 * i in fragments ? fragments[5 * i] : "sha256(" value() ")" }
        { fragments[NR] = $0 }
        END {
            if (shape == "chain") {
                for (i = 1; i < count; i++) printf "and_v(v:pk(%s),", key()
                printf "pk(%s)%s", key(), repeat(")", count - 1)
            }
            if (shape == "hashes") {
                for (i = 1; i <= count; i++) printf "and_v(v:%s,", hash(i)
                printf "pk(%s)%s", key(), repeat(")", count)
            }
            if (shape == "threshold") {
                printf "thresh(%d,pk(%s)", (count + 1) / 2, key()
                for (i = 1; i < count; i++) printf ",s:pk(%s)", key()
                printf ")"
            }
            if (shape == "branches") {
                for (i = 1; i < count; i++) printf "or_i(pkh(%s),", key()
                printf "pkh(%s)%s", key(), repeat(")", count - 1)
            }
            if (shape == "letters") printf "%s:or_i(multi(10%s),multi(10%s))", repeat("n", count), keys(20), keys(20)
            if (shape == "choices") printf "thresh(%d,0%s)", count / 2, repeat(",sl:1,su:1", count / 2)
            if (shape == "levels") {
                for (i = 0; i < count; i++) printf "and_v(v:multi(1%s),", keys(4)
                printf "pk(%s)%s", key(), repeat(")", count)
            }
            if (shape == "lists") {
                for (i = 0; i < 11; i++) printf "and_v(v:pk(%s),", key()
                for (i = 1; i < count; i++) printf "or_i(multi(1%s),", keys(20)
                printf "multi(1%s)%s", keys(20), repeat(")", count + 10)
            }
            if (shape == "multi") printf "multi(1%s)", keys(count)
            if (shape == "wrong_child") printf "thresh(1,0%s,0)", repeat(",a:0", count - 2)
            if (shape == "wrong_children") printf "thresh(1,0%s)", repeat(",0", count - 1)
            if (shape == "runs") printf "thresh(1,0%s)", repeat(",a" repeat("n", 249) ":0", count)
        }' "$input"
}
