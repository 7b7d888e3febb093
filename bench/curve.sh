#!/bin/sh
# Instructions a judgement of a good signature, key and DER included, on average over random ones: of the proved call, of libsecp256k1 (Debian's
# libsecp256k1-dev) and of a plain program in Rust with the same arithmetic. Each is the difference between two judgements and one of each row,
# over the rows. Before, all three say the same of each row.
# With the words `trial N` it measures nothing: N random and damaged signatures get the same words by the proved library and by libsecp256k1, and
# their keys the same points.
. "$(dirname "$0")/lib.sh"
wants valgrind rustc rt cc python3
cases=$top/bench/curve_cases
if [ "${1:-}" = trial ]; then
    "$cases" trial "${2:-1000000}" || stop "they differ"
    exit 0
fi
small_program curve_bench "def_curve ms_judge hex" <<'RATTLE'
//! A line `KEY HASH SIG` of standard input, in hex digits or `-`, gives the word of its judgement. A number says how often each is judged.
#![tactic(auto)]

use def_curve::Judgement;
use ms_judge::judge::judge;
use std::alloc::Global;
use std::env;
use std::io::{self, BufRead, BufReader, BufWriter, Write};

fn bytes_of(alloc: Global, digits: Option<&str>) -> Vec<u8> {
    match hex::decode(alloc, digits.unwrap_or("")) {
        Ok(bytes) => bytes,
        Err(_) => Vec::new(alloc),
    }
}

fn word_of(alloc: Global, line: &str, times: u32) -> &'static str {
    let mut words = line.split(' ');
    let key = bytes_of(alloc, words.next());
    let hash = bytes_of(alloc, words.next());
    let signature = bytes_of(alloc, words.next());
    let mut word = "bad\n";
    for _ in 0..times {
        word = match judge(&key, &hash, &signature) {
            Judgement::Bad => "bad\n",
            Judgement::High => "high\n",
            Judgement::Good => "good\n",
        };
    }
    word
}

fn main(rt: HostRuntime) -> io::Result<()> {
    let mut times: u32 = 1;
    for word in env::args(&rt)?.skip(1) {
        times = word.as_str().parse::<u32>().unwrap_or(1);
    }
    let mut out = BufWriter::new(rt.alloc(), io::writer(&rt))?;
    for line in BufReader::new(rt.alloc(), rt.reader())?.lines(rt.alloc()) {
        let line = line?;
        out.write_all(word_of(rt.alloc(), line.as_str(), times).as_bytes())?;
    }
    out.flush()
}
RATTLE
plain curve_baseline
other=$work/curve_libsecp256k1
cc -O2 -o "$other" "$top/bench/curve_libsecp256k1.c" -lsecp256k1 || stop "there is no libsecp256k1-dev"
signatures=50
input=$work/input
"$cases" good $signatures >"$input" || stop "there are no signatures"

# Sets `counted` to the instructions a judgement of a program.
count_a_judgement() {
    count "$1" 1
    less=$counted
    count "$1" 2
    counted=$(((counted - less) / signatures))
}

for one in "$program" "$plain" "$other"; do
    "$one" 1 <"$input" >"$work/words"
    [ "$(grep -c '^good$' "$work/words")" = $signatures ] || stop "$one doesn't say good of each"
done
columns command shape size bytes proved plain libsecp256k1
count_a_judgement "$program"
proved=$counted
count_a_judgement "$plain"
unproved=$counted
count_a_judgement "$other"
row curve judgement 1 "$signatures" "$proved" "$unproved" "$counted"
finish
