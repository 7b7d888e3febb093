// SPDX-License-Identifier: MIT
//! The calls, each over buffers of its own.

use crate::error::Error;
use crate::names;
use crate::{Accepted, Assets, Audit, Base, Facts, Judgement, Known, Plan, Rules, Run, Signature, Step};
use core::ffi::{c_char, c_void};
use msat_sys::{MSAT_DONE, MSAT_GOOD, MSAT_HIGH, MSAT_NO_MEMORY, MSAT_UNREADABLE, msat_facts, msat_outcome, msat_reason, msat_step};

/// The version of the library that is loaded: major, minor and patch.
pub fn version() -> (u32, u32, u32) {
    let number = msat_sys::msat_version();
    (number / 1_000_000, number / 1_000 % 1_000, number % 1_000)
}

/// The exit status and the report of the program for these words, where its standard input holds `source`.
pub fn answer(words: &[&str], source: &[u8]) -> Result<(u32, String), Error> {
    let (code, report) = answered(msat_sys::msat_answer, words, source)?;
    Ok((code, String::from_utf8_lossy(&report).into_owned()))
}

/// The exit status and the report of `msat-psbt` for these words, `finalize`, `inspect` or `hashes`, each alone or with `--unverified`
/// behind it, `extract`, `verify` or `combine`, where its standard input holds
/// a PSBT, as bytes or as base64. What `finalize` reports is that PSBT, in the same form, with its inputs made final.
pub fn psbt_answer(words: &[&str], source: &[u8]) -> Result<(u32, Vec<u8>), Error> {
    answered(msat_sys::msat_psbt_answer, words, source)
}

/// The exit status and the report of `msat-descriptor` for these words, `check D`,
/// `derive [--testnet or --regtest] [--branch B] D INDEX [COUNT]` or `update D COUNT`, where its standard input holds `source`, for `update` a PSBT, as
/// bytes or as base64. What `update` reports is that PSBT, in the same form, with what D says of its inputs and outputs.
pub fn descriptor_answer(words: &[&str], source: &[u8]) -> Result<(u32, Vec<u8>), Error> {
    answered(msat_sys::msat_descriptor_answer, words, source)
}

type Answer = unsafe extern "C" fn(usize, *const c_char, usize, *const c_void, usize, *mut c_char, usize, *mut usize) -> u32;

/// The answer of one of the calls that take words.
fn answered(call: Answer, words: &[&str], source: &[u8]) -> Result<(u32, Vec<u8>), Error> {
    if words.iter().any(|word| word.contains('\0')) {
        return Err(Error::Unreadable);
    }
    let joined: Vec<u8> = words.iter().flat_map(|word| word.bytes().chain([0])).collect();
    let mut report = vec![0; 4096];
    loop {
        let mut needed = 0;
        // SAFETY: each pointer and length is that of a slice, which is written, aligned and borrowed for the call; what is written
        // is borrowed for that alone. It is so in each call below.
        let code = unsafe {
            call(
                words.len(),
                joined.as_ptr().cast(),
                joined.len(),
                source.as_ptr().cast(),
                source.len(),
                report.as_mut_ptr().cast(),
                report.len(),
                &mut needed,
            )
        };
        if code == MSAT_NO_MEMORY || code == MSAT_UNREADABLE {
            return Err(names::error(code, &msat_reason::default()));
        }
        if needed <= report.len() {
            report.truncate(needed);
            return Ok((code, report));
        }
        report.resize(needed, 0);
    }
}

/// The Script of a valid text.
pub fn script(text: &str, rules: Rules) -> Result<Vec<u8>, Error> {
    let mut script = vec![0; 4096];
    loop {
        let (mut needed, mut reason) = (0, msat_reason::default());
        // SAFETY: as in `answer`.
        let code = unsafe {
            msat_sys::msat_script(
                rules == Rules::Consensus,
                text.as_ptr().cast(),
                text.len(),
                script.as_mut_ptr(),
                script.len(),
                &mut needed,
                &mut reason,
            )
        };
        if code != MSAT_DONE {
            return Err(names::error(code, &reason));
        }
        if needed <= script.len() {
            script.truncate(needed);
            return Ok(script);
        }
        script.resize(needed, 0);
    }
}

/// What is known of a sane text.
pub fn check(text: &str, rules: Rules) -> Result<Facts, Error> {
    let (mut facts, mut reason) = (msat_facts::default(), msat_reason::default());
    // SAFETY: as in `answer`.
    let code =
        unsafe { msat_sys::msat_check(rules == Rules::Consensus, text.as_ptr().cast(), text.len(), &mut facts, &mut reason) };
    if code != MSAT_DONE {
        return Err(names::error(code, &reason));
    }
    let letters = [
        ('z', facts.z),
        ('o', facts.o),
        ('n', facts.n),
        ('d', facts.d),
        ('u', facts.u),
        ('s', facts.s),
        ('f', facts.f),
        ('e', facts.e),
    ];
    Ok(Facts {
        size: facts.size,
        ops: facts.ops,
        items: facts.items,
        weight: facts.weight,
        height: facts.height,
        base: [Base::B, Base::V, Base::K, Base::W][facts.base as usize % 4],
        properties: letters.iter().filter(|it| it.1).map(|it| it.0).collect(),
    })
}

/// The least weight of a canonical satisfaction of a valid text by an asset file: for each item 1 and its length, the Script aside.
pub fn least_weight(text: &str, file: &[u8], rules: Rules) -> Result<u64, Error> {
    let (mut weight, mut reason) = (0, msat_reason::default());
    // SAFETY: as in `answer`.
    let code = unsafe {
        msat_sys::msat_least_weight(
            rules == Rules::Consensus,
            text.as_ptr().cast(),
            text.len(),
            file.as_ptr().cast(),
            file.len(),
            &mut weight,
            &mut reason,
        )
    };
    if code == MSAT_DONE { Ok(weight) } else { Err(names::error(code, &reason)) }
}

/// What a text demands that is sane by the limits of policy: its printed policy, and the least number of keys that have to sign
/// where every hash lock and timelock is met, or none where no signatures are enough.
pub fn policy(text: &str) -> Result<(String, Option<u64>), Error> {
    let mut printed = vec![0; 4096];
    loop {
        let (mut needed, mut keys, mut reason) = (0, 0, msat_reason::default());
        // SAFETY: as in `answer`.
        let code = unsafe {
            msat_sys::msat_policy(
                text.as_ptr().cast(),
                text.len(),
                printed.as_mut_ptr().cast(),
                printed.len(),
                &mut needed,
                &mut keys,
                &mut reason,
            )
        };
        if code != MSAT_DONE {
            return Err(names::error(code, &reason));
        }
        if needed <= printed.len() {
            printed.truncate(needed);
            return Ok((String::from_utf8_lossy(&printed).into_owned(), (keys != u64::MAX).then_some(keys)));
        }
        printed.resize(needed, 0);
    }
}

/// The text, valid by the limits of policy, that a Script is read back as. The keys are those that its hashes of keys may be of.
pub fn decode(script: &[u8], keys: &[[u8; 33]]) -> Result<String, Error> {
    let keys = keys.as_flattened();
    let mut text = vec![0; 4096];
    loop {
        let mut needed = 0;
        // SAFETY: as in `answer`.
        let code = unsafe {
            msat_sys::msat_decode(
                script.as_ptr(),
                script.len(),
                keys.as_ptr(),
                keys.len(),
                text.as_mut_ptr().cast(),
                text.len(),
                &mut needed,
            )
        };
        if code != MSAT_DONE {
            return Err(names::error(code, &msat_reason::default()));
        }
        if needed <= text.len() {
            text.truncate(needed);
            return Ok(String::from_utf8_lossy(&text).into_owned());
        }
        text.resize(needed, 0);
    }
}

/// What a signature with the byte of its hash type behind is, by a compressed key and for a hash of 32 bytes. By any other bytes it is
/// [`Judgement::Bad`].
pub fn signature(key: &[u8], hash: &[u8], sig: &[u8]) -> Judgement {
    // SAFETY: as in `answer`.
    let code = unsafe { msat_sys::msat_signature(key.as_ptr(), key.len(), hash.as_ptr(), hash.len(), sig.as_ptr(), sig.len()) };
    match code {
        MSAT_GOOD => Judgement::Good,
        MSAT_HIGH => Judgement::High,
        _ => Judgement::Bad,
    }
}

/// The point of a compressed key, as 04, x and y (SEC 1, 2.3.3), or `None` where the bytes are no key or the key has no point.
pub fn point(key: &[u8]) -> Option<[u8; 65]> {
    let (mut point, mut needed) = ([0; 65], 0);
    // SAFETY: as in `answer`.
    let code = unsafe { msat_sys::msat_point(key.as_ptr(), key.len(), point.as_mut_ptr(), point.len(), &mut needed) };
    (code == MSAT_DONE).then_some(point)
}

/// The items of the witness of the satisfaction of a sane text by an asset file that nobody can change without a signature that it
/// doesn't show, another preimage or another key with the same hash: the stack, bottom first, and the Script as the last one.
pub fn witness(text: &str, file: &[u8], rules: Rules) -> Result<Vec<Vec<u8>>, Error> {
    by_file(false, text, file, rules)
}

/// Those of the lightest canonical satisfaction of a valid text, which others may be able to change.
pub fn witness_malleable(text: &str, file: &[u8], rules: Rules) -> Result<Vec<Vec<u8>>, Error> {
    by_file(true, text, file, rules)
}

/// As `witness`, of assets that are held, without a file.
pub fn satisfy(text: &str, held: &Assets, rules: Rules) -> Result<Vec<Vec<u8>>, Error> {
    by_assets(false, text, held, rules)
}

/// As `witness_malleable`, of assets that are held, without a file.
pub fn satisfy_malleable(text: &str, held: &Assets, rules: Rules) -> Result<Vec<Vec<u8>>, Error> {
    by_assets(true, text, held, rules)
}

/// Which keys to ask for a signature for a text that is sane by the limits of policy, and what its satisfaction weighs at most then.
pub fn plan(text: &str, known: &Known) -> Result<Plan, Error> {
    let keys: Vec<u8> = known.keys.iter().flat_map(|it| it.key).collect();
    let lengths: Vec<usize> = known.keys.iter().map(|it| it.length).collect();
    let preimages = known.preimages.as_flattened();
    let mut asked = vec![0; keys.len()];
    let (mut needed, mut weight, mut reason) = (0, 0, msat_reason::default());
    // SAFETY: as in `answer`.
    let code = unsafe {
        msat_sys::msat_plan(
            text.as_ptr().cast(),
            text.len(),
            known.version,
            known.sequence,
            known.locktime,
            keys.as_ptr(),
            keys.len(),
            lengths.as_ptr(),
            lengths.len(),
            preimages.as_ptr(),
            preimages.len(),
            asked.as_mut_ptr(),
            asked.len(),
            &mut needed,
            &mut weight,
            &mut reason,
        )
    };
    if code != MSAT_DONE {
        return Err(names::error(code, &reason));
    }
    // No key is asked that isn't among those that can sign.
    asked.truncate(needed);
    let keys = asked.chunks_exact(33).filter_map(|it| it.try_into().ok());
    Ok(Plan { keys: keys.collect(), weight })
}

/// The run of a script on a stack, where the interpreter accepts it.
pub fn run(run: &Run) -> Result<Accepted, Error> {
    let lent = Lent::of(run);
    let mut outcome = msat_outcome::default();
    let mut items = Items::empty();
    loop {
        // SAFETY: as in `answer`.
        let code = unsafe {
            msat_sys::msat_run(
                run.version,
                run.sequence,
                run.locktime,
                run.script.as_ptr(),
                run.script.len(),
                lent.items.as_ptr(),
                lent.items.len(),
                lent.item_lengths.as_ptr(),
                lent.item_lengths.len(),
                lent.keys.as_ptr(),
                lent.keys.len(),
                lent.signatures.as_ptr(),
                lent.signatures.len(),
                lent.signature_lengths.as_ptr(),
                lent.signature_lengths.len(),
                items.bytes.as_mut_ptr(),
                items.bytes.len(),
                &mut items.needed,
                items.lengths.as_mut_ptr(),
                items.lengths.len(),
                &mut items.count,
                &mut outcome,
                &mut items.reason,
            )
        };
        if code != MSAT_DONE {
            return Err(names::run_error(code, &outcome, &items.reason));
        }
        if items.had_room() {
            let parts = items.parts();
            let checks = parts
                .chunks_exact(2)
                .filter_map(|it| Some(Signature { key: it[0].as_slice().try_into().ok()?, bytes: it[1].clone() }));
            return Ok(Accepted { ops: outcome.ops, peak: outcome.peak, checks: checks.collect() });
        }
    }
}

/// By which rows of BIP 379's table the stack of a run satisfies a text that is valid by the limits of policy, whose Script is that of
/// the run.
pub fn audit(text: &str, run: &Run) -> Result<Audit, Error> {
    let lent = Lent::of(run);
    let mut steps = vec![msat_step::default(); 256];
    let (mut outcome, mut reason) = (msat_outcome::default(), msat_reason::default());
    let (mut count, mut canonical) = (0, false);
    loop {
        // SAFETY: as in `answer`.
        let code = unsafe {
            msat_sys::msat_audit(
                text.as_ptr().cast(),
                text.len(),
                run.version,
                run.sequence,
                run.locktime,
                run.script.as_ptr(),
                run.script.len(),
                lent.items.as_ptr(),
                lent.items.len(),
                lent.item_lengths.as_ptr(),
                lent.item_lengths.len(),
                lent.keys.as_ptr(),
                lent.keys.len(),
                lent.signatures.as_ptr(),
                lent.signatures.len(),
                lent.signature_lengths.as_ptr(),
                lent.signature_lengths.len(),
                steps.as_mut_ptr(),
                steps.len(),
                &mut count,
                &mut canonical,
                &mut outcome,
                &mut reason,
            )
        };
        if code != MSAT_DONE {
            return Err(names::run_error(code, &outcome, &reason));
        }
        if count <= steps.len() {
            let steps = steps[..count].iter().map(|it| Step { place: it.place, satisfied: it.sat, extra: it.extra });
            return Ok(Audit { ops: outcome.ops, peak: outcome.peak, steps: steps.collect(), canonical });
        }
        steps.resize(count, msat_step::default());
    }
}

/// The arrays of a run.
struct Lent {
    items: Vec<u8>,
    item_lengths: Vec<usize>,
    keys: Vec<u8>,
    signatures: Vec<u8>,
    signature_lengths: Vec<usize>,
}

impl Lent {
    fn of(run: &Run) -> Lent {
        Lent {
            items: run.stack.concat(),
            item_lengths: run.stack.iter().map(Vec::len).collect(),
            keys: run.signatures.iter().flat_map(|it| it.key).collect(),
            signatures: run.signatures.iter().flat_map(|it| it.bytes.iter().copied()).collect(),
            signature_lengths: run.signatures.iter().map(|it| it.bytes.len()).collect(),
        }
    }
}

fn by_file(malleable: bool, text: &str, file: &[u8], rules: Rules) -> Result<Vec<Vec<u8>>, Error> {
    Items::of(|items| {
        // SAFETY: as in `answer`.
        unsafe {
            msat_sys::msat_witness(
                malleable,
                rules == Rules::Consensus,
                text.as_ptr().cast(),
                text.len(),
                file.as_ptr().cast(),
                file.len(),
                items.bytes.as_mut_ptr(),
                items.bytes.len(),
                &mut items.needed,
                items.lengths.as_mut_ptr(),
                items.lengths.len(),
                &mut items.count,
                &mut items.reason,
            )
        }
    })
}

fn by_assets(malleable: bool, text: &str, held: &Assets, rules: Rules) -> Result<Vec<Vec<u8>>, Error> {
    let keys: Vec<u8> = held.signatures.iter().flat_map(|it| it.key).collect();
    let signatures: Vec<u8> = held.signatures.iter().flat_map(|it| it.bytes.iter().copied()).collect();
    let lengths: Vec<usize> = held.signatures.iter().map(|it| it.bytes.len()).collect();
    let preimages = held.preimages.as_flattened();
    Items::of(|items| {
        // SAFETY: as in `answer`.
        unsafe {
            msat_sys::msat_satisfy(
                malleable,
                rules == Rules::Consensus,
                text.as_ptr().cast(),
                text.len(),
                held.version,
                held.sequence,
                held.locktime,
                keys.as_ptr(),
                keys.len(),
                signatures.as_ptr(),
                signatures.len(),
                lengths.as_ptr(),
                lengths.len(),
                preimages.as_ptr(),
                preimages.len(),
                items.bytes.as_mut_ptr(),
                items.bytes.len(),
                &mut items.needed,
                items.lengths.as_mut_ptr(),
                items.lengths.len(),
                &mut items.count,
                &mut items.reason,
            )
        }
    })
}

/// The buffers of a call that gives items.
struct Items {
    bytes: Vec<u8>,
    needed: usize,
    lengths: Vec<usize>,
    count: usize,
    reason: msat_reason,
}

impl Items {
    /// The items that a call gives, which is made again where there was too little room.
    fn of(call: impl Fn(&mut Items) -> u32) -> Result<Vec<Vec<u8>>, Error> {
        let mut items = Items::empty();
        loop {
            let code = call(&mut items);
            if code != MSAT_DONE {
                return Err(names::error(code, &items.reason));
            }
            if items.had_room() {
                return Ok(items.parts());
            }
        }
    }

    fn empty() -> Items {
        Items { bytes: vec![0; 8192], needed: 0, lengths: vec![0; 128], count: 0, reason: msat_reason::default() }
    }

    /// Whether there was room enough for a call. Where there wasn't, there is now.
    fn had_room(&mut self) -> bool {
        let had = self.needed <= self.bytes.len() && self.count <= self.lengths.len();
        self.bytes.resize(self.needed.max(self.bytes.len()), 0);
        self.lengths.resize(self.count.max(self.lengths.len()), 0);
        had
    }

    fn parts(&self) -> Vec<Vec<u8>> {
        let mut rest = self.bytes.as_slice();
        let mut parts = Vec::with_capacity(self.count);
        for length in &self.lengths[..self.count] {
            let (part, others) = rest.split_at(*length);
            parts.push(part.to_vec());
            rest = others;
        }
        parts
    }
}
