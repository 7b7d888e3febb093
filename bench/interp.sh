#!/bin/sh
# Instructions a run of the proved interpreter and of a plain one in Rust: the difference between 30 and 20 runs, over 10.
. "$(dirname "$0")/lib.sh"
wants valgrind rustc rt
small_program interp_bench "ms_hash ms_interp ms_oracle ms_script" <<'RATTLE'
//! Runs a Script so many times: `ops` is 201 opcodes over small elements, `hashes` 100 hashes of 520 bytes, `digests` the same
//! hashes alone, and `multisig` 9 multisignatures of 20 keys. The exit status is the number of opcodes.
#![tactic(auto)]

use ms_hash::sha256;
use ms_interp::run;
use ms_oracle::{member, Locks, Pairs, SigCheck};
use ms_script::Stack;
use std::alloc::Global;
use std::env::{self, Env};
use std::io;
use std::process::ExitCode;

fn main(rt: HostRuntime) -> ExitCode {
    match opcodes(rt.alloc(), &rt) {
        Ok(ops) => ExitCode::from((ops % 256) as u8),
        Err(_) => ExitCode::from(255),
    }
}

fn opcodes(alloc: Global, rt: &(impl Env + Alloc<A = Global>)) -> io::Result<u32> {
    let mut kind: u32 = 0;
    let mut times: u32 = 0;
    for word in env::args(rt)?.skip(1) {
        match word.as_str() {
            "ops" => kind = 1,
            "hashes" => kind = 2,
            "digests" => kind = 3,
            "multisig" => kind = 4,
            other => times = other.parse::<u32>().unwrap_or(0),
        }
    }
    if kind == 3 {
        let element = [0x61; 520];
        let mut first: u32 = 0;
        for _ in 0..times {
            for _ in 0..100 {
                first = sha256(&element)[0] as u32;
            }
        }
        return Ok(first);
    }
    let mut script = Vec::new(alloc);
    let mut stack = Stack::new(alloc);
    let mut pairs = Pairs::new(alloc);
    let key = [2; 33];
    let sig = [0x61; 72];
    pairs.push(&key, &sig)?;
    if kind == 1 {
        script.extend_from_slice(b"\x51\x51")?;
        for _ in 0..50 {
            script.extend_from_slice(b"\x7c\x76\x93\x92")?;
        }
        script.extend_from_slice(b"\x9b")?;
    }
    if kind == 2 {
        for _ in 0..100 {
            stack.push(&[0x61; 520])?;
            script.extend_from_slice(b"\xa8\x6b")?;
        }
        script.push(0x51)?;
    }
    if kind == 4 {
        for _ in 0..9 {
            stack.push(b"")?;
            stack.push(&sig)?;
            script.extend_from_slice(b"\x51\x21")?;
            script.extend_from_slice(&key)?;
            for _ in 0..19 {
                script.extend_from_slice(b"\x21")?;
                script.extend_from_slice(&[3; 33])?;
            }
            script.extend_from_slice(b"\x01\x14\xaf")?;
        }
        script.push(0x51)?;
    }
    let table = pairs.as_slice();
    let sigs = SigCheck::new(table, |key: &[u8], sig: &[u8]| member(table, key, sig));
    let locks = Locks { version: 2, sequence: 0, locktime: 0 };
    let mut ops = 0;
    if stack.len() > 1000 {
        return Ok(254);
    }
    for _ in 0..times {
        if let Ok(report) = run(alloc, &script, &stack, &locks, &sigs) {
            ops = report.ops;
        } else {
            ops = 253;
        }
    }
    Ok(ops)
}
RATTLE
plain interp_baseline

# Sets `counted` to the instructions a run that a program takes.
count_a_run() {
    count "$1" "$2" 20
    less=$counted
    count "$1" "$2" 30
    counted=$(((counted - less) / 10))
}

columns command shape size bytes proved plain
for kind in ops hashes digests multisig; do
    "$program" "$kind" 1
    ops=$?
    "$plain" "$kind" 1
    [ $? = "$ops" ] || stop "$kind: the plain interpreter counts other opcodes than $ops"
    count_a_run "$program" "$kind"
    proved=$counted
    count_a_run "$plain" "$kind"
    row interpreter "$kind" 1 "" "$proved" "$counted"
done
finish
