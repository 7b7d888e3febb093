#!/bin/sh
# Instructions a block of 64 bytes of RIPEMD-160 and SHA-256, of the proved calls and of plain loops in Rust: the difference between
# messages of 4,000 and of 2,000 blocks, over 2,000. Of RIPEMD-160 there are two plain loops: one of 80 steps, and one for each round and
# line, which rustc unrolls.
. "$(dirname "$0")/lib.sh"
wants valgrind rustc rt
small_program hash_bench ms_hash <<'RATTLE'
//! Hashes a message of so many blocks. The exit status is the digest's first byte.
#![tactic(auto)]

use ms_hash::{ripemd160, sha256};
use std::alloc::Global;
use std::env::{self, Env};
use std::io;
use std::process::ExitCode;

fn main(rt: HostRuntime) -> ExitCode {
    match first_byte(rt.alloc(), &rt) {
        Ok(first) => ExitCode::from(first),
        Err(_) => ExitCode::from(255),
    }
}

fn first_byte(alloc: Global, rt: &(impl Env + Alloc<A = Global>)) -> io::Result<u8> {
    let mut is_ripemd160 = false;
    let mut blocks: usize = 0;
    for word in env::args(rt)?.skip(1) {
        if word.as_str() == "ripemd160" {
            is_ripemd160 = true;
        }
        if let Ok(number) = word.as_str().parse::<usize>() {
            blocks = number;
        }
    }
    let message = vec![in alloc; 0x61u8; 262_144]?;
    if blocks > 4_096 {
        return Ok(255);
    }
    let message = &message[..blocks * 64];
    if is_ripemd160 {
        Ok(ripemd160(message)[0])
    } else {
        Ok(sha256(message)[0])
    }
}
RATTLE
plain hash_baseline

# Sets `counted` to the instructions a block that a program takes over a function.
count_a_block() {
    count "$1" "$2" 2000
    less=$counted
    count "$1" "$2" 4000
    counted=$(((counted - less) / 2000))
}

columns command shape size bytes proved plain
for function in ripemd160 sha256 ripemd160_by_rounds; do
    "$program" "${function%_by_rounds}" 4000
    first=$?
    "$plain" "$function" 4000
    [ $? = "$first" ] || stop "$function: the digests differ"
    count_a_block "$program" "${function%_by_rounds}"
    proved=$counted
    count_a_block "$plain" "$function"
    row hash "$function" 1 64 "$proved" "$counted"
done
finish
