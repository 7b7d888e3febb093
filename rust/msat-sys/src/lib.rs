// SPDX-License-Identifier: MIT
//! The calls of `libmsat` as `msat.h` declares them. The crate `msat` has safe ones above these.
//!
//! What C owes in a call is what Rust's `&[T]` and `&mut T` owe, of values that were written before; the header says it whole.
#![no_std]
#![allow(non_camel_case_types)]

use core::ffi::{c_char, c_void};

/// The codes that calls answer.
pub const MSAT_DONE: u32 = 0;
pub const MSAT_USAGE: u32 = 1;
pub const MSAT_TEXT_REFUSED: u32 = 2;
pub const MSAT_FILE_REFUSED: u32 = 3;
pub const MSAT_NO_SATISFACTION: u32 = 4;
pub const MSAT_NO_MEMORY: u32 = 7;
pub const MSAT_SCRIPT_REFUSED: u32 = 8;
pub const MSAT_NOT_ACCEPTED: u32 = 9;
pub const MSAT_NO_READING: u32 = 10;
pub const MSAT_UNREADABLE: u32 = 11;
pub const MSAT_NO_POINT: u32 = 12;

/// What `msat_signature` answers.
pub const MSAT_BAD: u32 = 0;
pub const MSAT_GOOD: u32 = 1;
pub const MSAT_HIGH: u32 = 2;

/// The codes of `msat_psbt_answer` that have names of their own.
pub const MSAT_PSBT_REFUSED: u32 = 3;
pub const MSAT_PSBT_OPEN: u32 = 4;

/// The codes of `msat_descriptor_answer` that have names of their own.
pub const MSAT_DESCRIPTOR_REFUSED: u32 = 2;
pub const MSAT_DESCRIPTOR_PSBT_REFUSED: u32 = 3;
pub const MSAT_DESCRIPTOR_UNFIT: u32 = 4;
pub const MSAT_DESCRIPTOR_NO_INPUT: u32 = 4;

/// The version that these declarations are of, as `msat_version` tells that of the library.
pub const MSAT_VERSION_NUMBER: u32 = 1_000_000;

/// Why a text, a file or arrays are refused, as plain numbers. What isn't named at its kind is 0.
#[repr(C)]
#[derive(Clone, Copy, Debug, Default, PartialEq, Eq, Hash)]
pub struct msat_reason {
    pub kind: u32,
    pub rule: u32,
    pub place: u32,
    pub number: u64,
}

/// What is known of a sane text.
#[repr(C)]
#[derive(Clone, Copy, Debug, Default, PartialEq, Eq, Hash)]
pub struct msat_facts {
    pub size: u64,
    pub ops: u64,
    pub items: u64,
    pub weight: u64,
    pub height: u64,
    pub base: u32,
    pub z: bool,
    pub o: bool,
    pub n: bool,
    pub d: bool,
    pub u: bool,
    pub s: bool,
    pub f: bool,
    pub e: bool,
}

/// What a run comes to: its counts where it is accepted, or its fault and place where it is refused; the others are 0.
#[repr(C)]
#[derive(Clone, Copy, Debug, Default, PartialEq, Eq, Hash)]
pub struct msat_outcome {
    pub ops: u32,
    pub peak: u32,
    pub fault: u32,
    pub place: u32,
}

/// How a node of a text takes part in a satisfaction.
#[repr(C)]
#[derive(Clone, Copy, Debug, Default, PartialEq, Eq, Hash)]
pub struct msat_step {
    pub place: u32,
    pub sat: bool,
    pub extra: bool,
}

unsafe extern "C" {
    pub safe fn msat_version() -> u32;

    pub fn msat_answer(
        count: usize,
        words: *const c_char,
        words_len: usize,
        source: *const c_void,
        source_len: usize,
        report: *mut c_char,
        report_len: usize,
        needed: *mut usize,
    ) -> u32;

    pub fn msat_psbt_answer(
        count: usize,
        words: *const c_char,
        words_len: usize,
        source: *const c_void,
        source_len: usize,
        report: *mut c_char,
        report_len: usize,
        needed: *mut usize,
    ) -> u32;

    pub fn msat_descriptor_answer(
        count: usize,
        words: *const c_char,
        words_len: usize,
        source: *const c_void,
        source_len: usize,
        report: *mut c_char,
        report_len: usize,
        needed: *mut usize,
    ) -> u32;

    pub fn msat_script(
        consensus: bool,
        text: *const c_char,
        text_len: usize,
        script: *mut u8,
        script_len: usize,
        needed: *mut usize,
        reason: *mut msat_reason,
    ) -> u32;

    pub fn msat_check(
        consensus: bool,
        text: *const c_char,
        text_len: usize,
        facts: *mut msat_facts,
        reason: *mut msat_reason,
    ) -> u32;

    pub fn msat_least_weight(
        consensus: bool,
        text: *const c_char,
        text_len: usize,
        file: *const c_void,
        file_len: usize,
        weight: *mut u64,
        reason: *mut msat_reason,
    ) -> u32;

    pub fn msat_witness(
        malleable: bool,
        consensus: bool,
        text: *const c_char,
        text_len: usize,
        file: *const c_void,
        file_len: usize,
        bytes: *mut u8,
        bytes_len: usize,
        needed: *mut usize,
        lengths: *mut usize,
        lengths_len: usize,
        count: *mut usize,
        reason: *mut msat_reason,
    ) -> u32;

    pub fn msat_policy(
        text: *const c_char,
        text_len: usize,
        policy: *mut c_char,
        policy_len: usize,
        needed: *mut usize,
        keys: *mut u64,
        reason: *mut msat_reason,
    ) -> u32;

    pub fn msat_decode(
        script: *const u8,
        script_len: usize,
        keys: *const u8,
        keys_len: usize,
        text: *mut c_char,
        text_len: usize,
        needed: *mut usize,
    ) -> u32;

    pub fn msat_signature(
        key: *const u8,
        key_len: usize,
        hash: *const u8,
        hash_len: usize,
        sig: *const u8,
        sig_len: usize,
    ) -> u32;

    pub fn msat_point(key: *const u8, key_len: usize, point: *mut u8, point_len: usize, needed: *mut usize) -> u32;

    pub fn msat_plan(
        text: *const c_char,
        text_len: usize,
        version: u32,
        sequence: u32,
        locktime: u32,
        keys: *const u8,
        keys_len: usize,
        signature_lengths: *const usize,
        signature_count: usize,
        preimages: *const u8,
        preimages_len: usize,
        asked: *mut u8,
        asked_len: usize,
        needed: *mut usize,
        weight: *mut u64,
        reason: *mut msat_reason,
    ) -> u32;

    pub fn msat_run(
        version: u32,
        sequence: u32,
        locktime: u32,
        script: *const u8,
        script_len: usize,
        items: *const u8,
        items_len: usize,
        item_lengths: *const usize,
        item_count: usize,
        keys: *const u8,
        keys_len: usize,
        signatures: *const u8,
        signatures_len: usize,
        signature_lengths: *const usize,
        signature_count: usize,
        bytes: *mut u8,
        bytes_len: usize,
        needed: *mut usize,
        lengths: *mut usize,
        lengths_len: usize,
        count: *mut usize,
        outcome: *mut msat_outcome,
        reason: *mut msat_reason,
    ) -> u32;

    pub fn msat_audit(
        text: *const c_char,
        text_len: usize,
        version: u32,
        sequence: u32,
        locktime: u32,
        script: *const u8,
        script_len: usize,
        items: *const u8,
        items_len: usize,
        item_lengths: *const usize,
        item_count: usize,
        keys: *const u8,
        keys_len: usize,
        signatures: *const u8,
        signatures_len: usize,
        signature_lengths: *const usize,
        signature_count: usize,
        steps: *mut msat_step,
        steps_len: usize,
        count: *mut usize,
        canonical: *mut bool,
        outcome: *mut msat_outcome,
        reason: *mut msat_reason,
    ) -> u32;

    pub fn msat_satisfy(
        malleable: bool,
        consensus: bool,
        text: *const c_char,
        text_len: usize,
        version: u32,
        sequence: u32,
        locktime: u32,
        keys: *const u8,
        keys_len: usize,
        signatures: *const u8,
        signatures_len: usize,
        signature_lengths: *const usize,
        signature_count: usize,
        preimages: *const u8,
        preimages_len: usize,
        bytes: *mut u8,
        bytes_len: usize,
        needed: *mut usize,
        lengths: *mut usize,
        lengths_len: usize,
        count: *mut usize,
        reason: *mut msat_reason,
    ) -> u32;
}
