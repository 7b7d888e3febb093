#!/bin/sh
# How `ms_height::height` grows with the children of a threshold: its instructions alone, which are those of a small program that reads a
# text, types it and takes its height, less those of the same program that doesn't take it. Half of the children that can be satisfied are:
# keys, and children that take more items satisfied or more dissatisfied.
. "$(dirname "$0")/lib.sh"
wants valgrind rt
small_program height_bench "bumpalo ms_height ms_sane ms_text ms_types" <<'RATTLE'
//! Reads a text and types it, and prints its height where the first word is `height`.
#![tactic(auto)]

use bumpalo::Bump;
use ms_height::height;
use ms_sane::Work;
use ms_text::read_text;
use ms_types::correctness_of;
use std::alloc::Global;
use std::env::{self, Env};
use std::io;

fn main(rt: HostRuntime) -> io::Result<()> {
    let mut measured = false;
    for word in env::args(&rt)?.skip(1) {
        if word.as_str() == "height" {
            measured = true;
        } else {
            let found = height_of(rt.alloc(), word.as_str(), measured)?;
            println!(rt; "{found}")?;
        }
    }
    Ok(())
}

fn height_of(alloc: Global, text: &str, measured: bool) -> io::Result<u64> {
    let arena = Bump::new(alloc);
    let Ok(text) = read_text(alloc, &arena, text) else {
        return Ok(0);
    };
    let mut work = Work::new(alloc, text.tree())?;
    match correctness_of(text.tree()) {
        Ok(_) if measured => Ok(height(text.tree(), &mut work)),
        _ => Ok(0),
    }
}
RATTLE

# Prints a threshold of SHAPE with COUNT children besides `0`.
threshold_of() {
    awk -v shape="$1" -v count="$2" 'BEGIN {
        split("al:and_v(vl:1,1) al:and_v(vlll:1,1) a:or_i(1,ll:0) a:or_i(1,llll:0)", more, " ")
        printf "thresh(%d,0", count / 2
        for (i = 1; i <= count; i++) printf ",%s", shape == "surpluses" ? more[(i - 1) % 4 + 1] : sprintf("s:pk(02%064x)", i)
        printf ")"
    }'
}

columns command shape size bytes proved plain
while read -r shape sizes; do
    for size in $sizes; do
        text=$(threshold_of "$shape" "$size")
        # Of keys each takes a signature; beside them lie at most the first child's result and a key.
        [ "$shape" = surpluses ] || [ "$("$program" height "$text")" = $((size + 2)) ] || stop "$shape $size: another height"
        count "$program" type "$text"
        less=$counted
        count "$program" height "$text"
        row height "$shape" "$size" ${#text} $((counted - less)) ""
    done
done <<'SIZES'
keys 100 200 400 800
surpluses 250 500 1000 2000
SIZES
finish
