#!/bin/sh
# Fuzzes the proved library with libFuzzer, which follows its coverage, and the proved program beside it: msat_answer and msat by words, texts,
# asset files, run files, plan files, Scripts and keys; or msat_psbt_answer and msat-psbt by PSBTs; or msat_descriptor_answer and msat-descriptor by
# descriptors; or msat_signature and msat_point by keys, hashes and signatures, with libsecp256k1 in the program's place. It begins with the inputs
# in bench/fuzz/seeds/, the cases of examples/, generated texts, and the words of bench/fuzz/msat.dict, psbt.dict or descriptor.dict.
# bench/fuzz/harness.c, psbt.c, descriptor.c and curve.c say what stops it. For this the archive is compiled once more, from what was proved, with a counter at each branch: by the kit's compiler with one word more (.ci/archive).
#
# The first process traces comparisons, so that their operands are tried, and prefers inputs with rare branches; it hands what it finds to the
# others, which do without either and make three times as many executions. libFuzzer's profile of compared values isn't kept: with it a tenth of the
# executions is made in the same time, and fewer branches are covered.
#
# The executions are made in slices, of which each one is written down at its end: in bench/results/fuzz_runs.tsv with the sum of the
# archive that was fuzzed, and by commands and statuses in bench/results/fuzz.tsv, fuzz_psbt.tsv, fuzz_descriptor.tsv or fuzz_curve.tsv. So a run that is broken off loses a slice
# at most, and the next one goes on from that count, with other random numbers. After 1,000,000 executions and more the least set of inputs that
# covers the same branches is put into bench/fuzz/seeds/.
#
# Ends with 1 where an input crashed, took over a second (or FUZZ_TIMEOUT seconds, on a busy machine), or broke what the harness asks; that
# input is kept in bench/fuzz/found/. Wants clang with libFuzzer (Debian's clang and libclang-rt-14-dev), objcopy, Python and rt, and the
# library and the programs to be built (.ci/run), and for signatures Debian's libsecp256k1-1.
# Usage: bench/fuzz.sh [msat-psbt | msat-descriptor | signatures] [EXECUTIONS [PROCESSES]]
. "$(dirname "$0")/lib.sh"
wants clang nm objcopy python3 rt tar gzip flock
own=msat harness=harness words=-dict=$top/bench/fuzz/msat.dict longest=6000 linked=-Wl,--wrap=read,--wrap=write
case ${1:-} in
msat-psbt) shift && name=fuzz_psbt own=msat_psbt harness=psbt words=-dict=$top/bench/fuzz/psbt.dict longest=20000 ;;
msat-descriptor) shift && name=fuzz_descriptor own=msat_descriptor harness=descriptor words=-dict=$top/bench/fuzz/descriptor.dict ;;
signatures) shift && name=fuzz_curve own=signatures harness=curve words= longest=400 linked=-l:libsecp256k1.so.1 ;;
esac
executions=${1:-10000000} processes=${2:-$(nproc)}
slice=${FUZZ_SLICE:-1000000} most=${FUZZ_TIMEOUT:-1}
kit=$(dirname "$(rt doc)")
results=$top/bench/results
mkdir -p "$results" "$top/bench/fuzz/seeds"

# The kit with another compiler, which is written for each archive: it is called without the surroundings of this script.
mkdir -p "$work/kit/bin" "$work/kit/toolchain/bin" || stop "no room"
for part in "$kit"/* "$kit"/bin/* "$kit"/toolchain/* "$kit"/toolchain/bin/*; do
    [ -e "$work/kit/${part#"$kit"/}" ] || ln -s "$part" "$work/kit/${part#"$kit"/}"
done
rm "$work/kit/bin/rt" "$work/kit/bin/rtlib.py" "$work/kit/toolchain/bin/clang"
cp "$kit/bin/rt" "$kit/bin/rtlib.py" "$work/kit/bin"
archive=$top/crates/msat_c/out/libmsat_c.a
[ -s "$archive" ] || stop "the library isn't built: .ci/archive"
# Sets `counted` to the archive with a counter at each branch, and where that is asked for with its comparisons told. It is kept for the
# next call, as long as the archive is the same.
counted() {
    counted=$top/crates/msat_c/out/$1-$(sha256sum <"$archive" | cut -c 1-16).a
    [ ! -s "$counted" ] || return 0
    cat >"$work/kit/toolchain/bin/clang" <<CLANG
#!/bin/sh
exec "$kit/toolchain/bin/clang" "\$@" -fsanitize-coverage=$2
CLANG
    chmod +x "$work/kit/toolchain/bin/clang"
    "$top/.ci/archive" "$work/kit" "$work/counted.a" >"$work/log" 2>&1 || { cat "$work/log" >&2 && stop "the archive isn't compiled with counters"; }
    nm "$work/counted.a" 2>/dev/null | grep -q __sanitizer_cov || stop "the archive has no counters"
    rm -f "$top/crates/msat_c/out/$1"-*.a
    mv "$work/counted.a" "$counted"
}
# The program is as it was proved and built, without counters.
program=
if [ -s "$top/crates/$own/out/$own.o" ]; then
    objcopy --redefine-sym main=program_main "$top/crates/$own/out/$own.o" "$work/whole.o" &&
        objcopy --keep-global-symbol=program_main "$work/whole.o" "$work/program.o" || stop "the program has no main"
    program=$work/program.o
    sum=$(cat "$top/crates/$own/out/$own.o" "$archive" | sha256sum | cut -c 1-16)
else
    echo "there is no crates/$own/out/$own.o, so the library is tried alone"
    sum=$(sha256sum <"$archive" | cut -c 1-16)
fi
for kind in traced counted; do
    case $kind in
    traced) counted traced inline-8bit-counters,pc-table,trace-cmp ;;
    *) counted counted inline-8bit-counters,pc-table ;;
    esac
    # shellcheck disable=SC2086
    clang -O2 -Wall -Wextra -fsanitize=fuzzer -o "$work/$kind" "$top/bench/fuzz/$harness.c" $program "$counted" \
        "$kit/c/libos_c.a" "$kit/c/liblibc_c.a" $linked || stop "the fuzzer isn't built"
done

# What it begins with: what earlier runs kept, the cases of examples/, and texts by the types of BIP 379 with each command; or PSBTs with each command.
mkdir "$work/seeds" "$work/corpus" "$work/kept"
[ ! -e "$top/bench/fuzz/seeds/$own.tar.gz" ] || tar -xzf "$top/bench/fuzz/seeds/$own.tar.gz" -C "$work/kept" || stop "the seeds can't be unpacked"
python3 - "$top" "$work/seeds" $own <<'PYTHON' || stop "there are no seeds"
import base64, pathlib, sys

top, seeds = map(pathlib.Path, sys.argv[1:3])
if sys.argv[3] == "msat_psbt":
    made = set()
    for source in (top / "examples/psbt").glob("*/source"):
        psbt = source.read_bytes()
        if (source.parent / "words").read_text().split() == ["combine"]:
            made |= {b"c" + psbt, *(letter + line for letter in (b"f", b"i", b"e", b"h", b"v") for line in psbt.split())}
            continue
        made |= {letter + psbt for letter in (b"f", b"i", b"e", b"h", b"v", b"F", b"I", b"H")}
        made.add(b"c" + 2 * ((base64.b64encode(psbt) if psbt.startswith(b"psbt\xff") else psbt.replace(b"\n", b"")) + b"\n"))
    for number, input in enumerate(sorted(made)):
        (seeds / f"{number:05}").write_bytes(input)
    sys.exit(print(f"{len(made)} seeds"))
if sys.argv[3] == "msat_descriptor":
    import importlib.machinery, importlib.util
    loader = importlib.machinery.SourceFileLoader("rows", str(top / ".ci/descriptor"))
    rows = importlib.util.module_from_spec(importlib.util.spec_from_loader("rows", loader))
    sys.dont_write_bytecode = True
    loader.exec_module(rows)
    made = set()
    for file in (top / "examples/descriptors").glob("*.rows"):
        for _, words, *_ in rows.rows_of(file):
            for text in (word.encode() for word in words if "(" in word and len(word) < 5000):
                made |= {b"c" + bytes(6) + text, b"d" + bytes(6) + text, b"t\1\2" + bytes(4) + text, b"r\0\3\0\0\0\x0e" + text}
    for number, input in enumerate(sorted(made)):
        (seeds / f"{number:05}").write_bytes(input)
    sys.exit(print(f"{len(made)} seeds"))
if sys.argv[3] == "signatures":
    spelled = lambda word: b"" if word == "-" else bytes.fromhex(word)
    made = []
    for row in (top / "examples/signatures/signature.rows").read_text().splitlines():
        key, digest, sig = map(spelled, row.split()[1:4])
        made.append(bytes([len(key), len(digest)]) + key + digest + sig)
    made += [bytes([len(key), 0]) + key for key in (spelled(row.split()[0]) for row in (top / "examples/signatures/point.rows").read_text().splitlines())]
    for number, input in enumerate(made):
        (seeds / f"{number:05}").write_bytes(input)
    sys.exit(print(f"{len(made)} seeds"))
sys.path.insert(0, str(top / "bench"))
from texts import Texts

made = []
for case in sorted((top / "examples").iterdir()):
    if (case / "words").exists():
        words = (case / "words").read_text().split()
        words += [(case / "text").read_text().strip()] if (case / "text").exists() else []
        source = next((path.read_text() for path in (case / "assets.json", case / "run.json", case / "plan.json") if path.exists()), "")
        made.append((words, source))
texts = Texts(1)
for _ in range(200):
    text = texts.text()
    pairs = ",".join(f'{{"key":"{key}","sig":"3044"}}' for key in dict.fromkeys(texts.keys))
    source = f'{{"sequence":20,"signatures":[{pairs}],"preimages":["{"00" * 32}"]}}'
    for words in (["script"], ["asm"], ["tree"], ["check"], ["policy"], ["satisfy"], ["satisfy", "--malleable"], ["check", "--consensus"], ["satisfy", "--consensus"]):
        made.append((words + [text], source))
    made.append((["plan", text], source.replace("signatures", "keys").replace('"sig":"3044"', '"length":72')))
made += [(["gen", str(number)], "") for number in (1, 2, 7, 30)]
for number, (words, source) in enumerate(made):
    (seeds / f"{number:04}").write_text("\t".join(words) + "\n" + source)
print(f"{len(made)} seeds")
PYTHON
echo "$(find "$work/kept" -type f | wc -l) inputs kept by earlier runs"

# Writes a slice down: a process's line, and its inputs by commands and statuses. Prints how many executions there are in all.
cat >"$work/note" <<'PYTHON'
import fcntl, pathlib, re, sys

results, name, program, built, log, counts, seed, seconds = sys.argv[1:9]
results = pathlib.Path(results)
said = pathlib.Path(log).read_text(errors="replace")
executions = int((re.findall(r"stat::number_of_executed_units: *(\d+)", said) or [0])[-1])
covered = max(map(int, re.findall(r"cov: (\d+)", said)), default=0)
with open(results / "fuzz_runs.tsv", "a+") as runs:
    fcntl.flock(runs, fcntl.LOCK_EX)
    runs.seek(0)
    lines = runs.read().splitlines()
    if not lines:
        lines = ["program\tsum\tseed\texecutions\tseconds\tbranches"]
        runs.write(lines[0] + "\n")
    lines.append(f"{program}\t{built}\t{seed}\t{executions}\t{seconds}\t{covered}")
    runs.write(lines[-1] + "\n")
    runs.flush()
    same = [line.split("\t") for line in lines if line.split("\t")[:2] == [program, built]]
    head, table = f"# {program} {built}", {}
    path = results / f"{name}.tsv"
    old = path.read_text().splitlines() if path.exists() else []
    rows = [line.split("\t") for line in old[2:]] if old and old[0] == head and len(same) > 1 else []
    if pathlib.Path(counts).exists():
        rows += [line.split("\t") for line in pathlib.Path(counts).read_text().splitlines()]
    for command, status, inputs, again in rows:
        one = table.setdefault((command, int(status)), [0, 0])
        one[0] += int(inputs)
        one[1] += int(again)
    lines = [head, "command\tstatus\tinputs\tagain"]
    lines += [f"{command}\t{status}\t{inputs}\t{again}" for (command, status), (inputs, again) in sorted(table.items())]
    path.write_text("\n".join(lines) + "\n")
whole = [int(line[3]) for line in same]
print(f"{program} {built}: {executions} executions in {seconds} s, {executions / max(1, int(seconds)):.0f} a second; {sum(whole)} in {len(whole)} slices", flush=True)
PYTHON

# Each process takes one slice of the executions after the other, each with a seed of its own, and what the others found.
echo 0 >"$work/taken"
# Sets `runs` to the executions of the next slice.
take() {
    exec 9>"$work/lock"
    flock 9
    runs=$((executions - $(cat "$work/taken")))
    [ "$runs" -le "$slice" ] || runs=$slice
    echo $(($(cat "$work/taken") + runs)) >"$work/taken"
    exec 9>&-
}
begun=$(date +%s)
past=$(grep -c "^$own	$sum	" "$results/fuzz_runs.tsv" 2>/dev/null)
past=${past:-0}
for process in $(seq "$processes"); do
    (
        cd "$work" && mkdir "found$process" && echo 0 >"status$process"
        fuzzer=counted entropic=0
        [ "$process" -gt 1 ] || fuzzer=traced entropic=1
        number=0
        while take && [ "$runs" -gt 0 ]; do
            number=$((number + 1)) from=$(date +%s)
            seed=$((1 + past + process + 1000 * number))
            rm -f "counts$process"
            FUZZ_COUNTS=$work/counts$process ./$fuzzer -entropic=$entropic -runs="$runs" -seed=$seed -timeout="$most" -rss_limit_mb=1024 -max_len=$longest -reload=1 \
                -use_value_profile=0 ${words:+"$words"} -artifact_prefix="$work/found$process/" -print_final_stats=1 \
                corpus seeds kept >"log$process" 2>&1
            status=$?
            python3 "$work/note" "$results" "$name" $own "$sum" "log$process" "counts$process" $seed $(($(date +%s) - from))
            [ $status -eq 0 ] || { echo $status >"status$process" && break; }
        done
    ) &
done
wait
failed=
for process in $(seq "$processes"); do
    [ "$(cat "$work/status$process")" = 0 ] && continue
    failed=1
    grep -E '^harness:|ERROR|SUMMARY' "$work/log$process" >&2
    mkdir -p "$top/bench/fuzz/found" && cp "$work/found$process"/* "$top/bench/fuzz/found/"
done
[ -z "$failed" ] || stop "an input was found; it is in bench/fuzz/found"
cat "$results/$name.tsv"
echo "$processes processes, $(($(date +%s) - begun)) s, $(find "$work/corpus" -type f | wc -l) inputs kept; branches covered: $(grep -ho 'cov: [0-9]*' "$work"/log[0-9]* | awk '{ if ($2 > most) most = $2 } END { print most }')"
[ "$executions" -ge 1000000 ] || exit 0

# The least set that covers the same, in one file whose bytes come of it alone.
mkdir "$work/least"
(cd "$work" && ./counted -set_cover_merge=1 -timeout=10 -rss_limit_mb=1024 -max_len=$longest least kept corpus seeds >merge.log 2>&1) || stop "the inputs can't be merged: $(tail -n 1 "$work/merge.log")"
seeds=$top/bench/fuzz/seeds/$own.tar.gz
tar --sort=name --owner=0 --group=0 --numeric-owner --mode=644 --mtime=@0 -C "$work/least" -cf "$work/least.tar" . && gzip -9nc "$work/least.tar" >"$work/least.tar.gz" || stop "the seeds can't be packed"
[ "$(wc -c <"$work/least.tar.gz")" -le 1048576 ] || stop "the seeds take more than 1 MiB: $(wc -c <"$work/least.tar.gz") bytes"
mv "$work/least.tar.gz" "$seeds"
echo "$(find "$work/least" -type f | wc -l) inputs, $(wc -c <"$seeds") bytes, in bench/fuzz/seeds/$own.tar.gz: $(grep -o '[0-9]* new features added; [0-9]* new coverage edges' "$work/merge.log" | tail -n 1)"
