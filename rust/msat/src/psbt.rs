// SPDX-License-Identifier: MIT
//! PSBTs: what `msat-psbt inspect` and `msat-psbt hashes` tell, by types, and several that become one.
//!
//! A PSBT comes as bytes, or as base64. The library answers, as the program does; the reading of its report into these types is
//! tested on every report of examples/psbt and on broken ones, and not proved. `psbt_answer` finalizes and extracts.
//!
//! ```
//! use msat::psbt::{inspect, Fee};
//!
//! let told = inspect(b"cHNidP8BAAoCAAAAAAAAAAAAAA==")?;
//! assert_eq!((told.version, told.inputs.len(), told.fee), (2, 0, Fee::Proved(0)));
//! # Ok::<(), msat::Error>(())
//! ```

use crate::calls::psbt_answer;
use crate::error::{Error, PsbtFault, PsbtRefusal, Rule};
use crate::{Judgement, names};
use msat_sys::{MSAT_DONE, MSAT_PSBT_OPEN, MSAT_PSBT_REFUSED, MSAT_USAGE};

/// What a transaction does with the money, and of each input what it is, what it demands, and what is missing.
#[derive(Clone, Debug, PartialEq, Eq, Hash)]
#[non_exhaustive]
pub struct Inspection {
    /// The transaction's version.
    pub version: u32,
    pub locktime: u32,
    /// The id that the transaction has with empty scriptSigs, as users know it, in digits.
    pub txid: String,
    pub outputs: Vec<Output>,
    pub fee: Fee,
    pub inputs: Vec<Input>,
    /// The id with all final scriptSigs, where each is known and one has a byte: without it `txid` is the final one where each is known.
    pub final_txid: Option<String>,
}

impl Inspection {
    /// Whether all inputs are Final or Ready.
    pub fn is_settled(&self) -> bool {
        self.inputs.iter().all(|it| matches!(it.state, State::Final | State::Ready))
    }
}

/// An output: its amount in satoshis, and the Script that guards it.
#[derive(Clone, Debug, PartialEq, Eq, Hash)]
#[non_exhaustive]
pub struct Output {
    pub amount: u64,
    pub script: Vec<u8>,
}

/// What the inputs spend beyond the outputs, in satoshis. It is proved where a previous transaction proves each amount.
#[derive(Clone, Copy, Debug, PartialEq, Eq, Hash)]
#[non_exhaustive]
pub enum Fee {
    Proved(u128),
    Claimed(u128),
    /// The outputs are more.
    Negative,
    /// An amount isn't known.
    Unknown,
}

/// What an input spends, in satoshis.
#[derive(Clone, Copy, Debug, PartialEq, Eq, Hash)]
#[non_exhaustive]
pub enum Amount {
    /// By a previous transaction with the outpoint's id.
    Proved(u64),
    /// By a field that anybody could have written.
    Claimed(u64),
    Unknown,
}

/// The state of an input. docs/FORMATS.md says when each applies, and docs/USE.md what to do then.
#[derive(Clone, Debug, PartialEq, Eq, Hash)]
#[non_exhaustive]
pub enum State {
    Final,
    NoUtxo,
    WrongUtxo,
    OtherOutput,
    NoScript,
    WrongScript,
    NoReading,
    /// The miniscript isn't sane.
    Unfit(NotSane),
    WrongSighash,
    TooMany,
    Unsatisfied,
    Ready,
    /// A state that this version doesn't know.
    Other(String),
}

/// The first reason why a valid miniscript isn't sane.
#[derive(Clone, Copy, Debug, PartialEq, Eq, Hash)]
#[non_exhaustive]
pub enum NotSane {
    Malleable(Rule),
    NoSignature,
    MixedLocks,
    RepeatedKey,
}

/// An input. What isn't told of its state is none or empty.
#[derive(Clone, Debug, PartialEq, Eq, Hash)]
#[non_exhaustive]
pub struct Input {
    pub number: u64,
    pub state: State,
    /// The id of the transaction whose output is spent, as users know it, in digits.
    pub txid: String,
    pub index: u32,
    pub sequence: u32,
    pub amount: Amount,
    /// The kind of the spent output: `p2wsh`, `p2wpkh`, `p2sh-p2wsh`, `p2sh-p2wpkh` or `other`.
    pub kind: Option<String>,
    /// The signatures of compressed keys: each key, and the hash type behind its signature.
    pub signatures: Vec<([u8; 33], u8)>,
    /// How each of these signatures is judged; empty where that isn't told: in states in which it isn't known what they sign, and where
    /// they aren't verified.
    pub words: Vec<Judgement>,
    /// The miniscript.
    pub text: Option<String>,
    pub policy: Option<String>,
    /// Ready: what the satisfaction weighs.
    pub weight: Option<u64>,
    /// Unsatisfied: the keys to ask for a signature.
    pub asked: Vec<[u8; 33]>,
    /// Unsatisfied: what the satisfaction weighs at most then.
    pub most: Option<u64>,
    /// Unsatisfied, and no signatures would be enough: a preimage is missing, or a timelock doesn't hold.
    pub is_vain: bool,
}

/// What an input's signatures sign.
#[derive(Clone, Debug, PartialEq, Eq, Hash)]
#[non_exhaustive]
pub struct Hashes {
    pub number: u64,
    pub state: State,
    /// What a signature of the asked type signs, from WrongSighash on.
    pub asked: Option<Asked>,
    pub checks: Vec<Check>,
}

/// The hash type that is asked, and what a signature of it signs: none where it is no hash type. Only type 1 (ALL) keeps others from
/// changing the transaction.
#[derive(Clone, Copy, Debug, PartialEq, Eq, Hash)]
#[non_exhaustive]
pub struct Asked {
    pub hash_type: u32,
    pub hash: Option<[u8; 32]>,
}

/// A signature of an input, with the byte of its hash type behind, its key, and the hash that it has to sign by that byte: none where
/// it is no hash type.
#[derive(Clone, Debug, PartialEq, Eq, Hash)]
#[non_exhaustive]
pub struct Check {
    pub key: [u8; 33],
    pub signature: Vec<u8>,
    pub hash: Option<[u8; 32]>,
    /// How it is judged, where signatures are verified.
    pub word: Option<Judgement>,
}

/// What the transaction of a PSBT does with the money, and of each input what it is, what it demands, and what is missing.
pub fn inspect(psbt: &[u8]) -> Result<Inspection, Error> {
    told(&["inspect"], psbt, read_inspection)
}

/// The same where no signature is looked at, and each counts.
pub fn inspect_unverified(psbt: &[u8]) -> Result<Inspection, Error> {
    told(&["inspect", "--unverified"], psbt, read_inspection)
}

/// What the signatures of each input of a PSBT sign, and how those that are there are judged.
pub fn hashes(psbt: &[u8]) -> Result<Vec<Hashes>, Error> {
    told(&["hashes"], psbt, read_hashes)
}

/// The same where no signature is looked at.
pub fn hashes_unverified(psbt: &[u8]) -> Result<Vec<Hashes>, Error> {
    told(&["hashes", "--unverified"], psbt, read_hashes)
}

/// One PSBT that holds what several of one transaction hold, in the form of the first one, bytes or one line of base64: in each map the pairs of
/// the first, then those of the second whose keys haven't stood yet, and so on. So of a key with several values the first one's stays.
///
/// ```
/// let psbt = "cHNidP8BAAoCAAAAAAAAAAAAAA==";
/// assert_eq!(msat::psbt::combine(&[psbt, psbt])?, psbt.as_bytes());
/// # Ok::<(), msat::Error>(())
/// ```
pub fn combine<P: AsRef<[u8]>>(psbts: &[P]) -> Result<Vec<u8>, Error> {
    let mut lines = Vec::new();
    for psbt in psbts {
        let line = line_of(psbt.as_ref());
        if line.is_empty() {
            hashes(psbt.as_ref())?; // It would be passed over as a line, and is refused by itself.
        }
        lines.extend(line);
        lines.push(b'\n');
    }
    let is_base64 = psbts.first().is_none_or(|it| !it.as_ref().starts_with(MAGIC));
    let bytes = |line: &str| if is_base64 { Some(line.into()) } else { decoded(line.as_bytes()) };
    told(&["combine"], &lines, |report| bytes(report.trim_end_matches('\n')))
}

const MAGIC: &[u8] = b"psbt\xff";

/// A PSBT as one line of base64.
fn line_of(psbt: &[u8]) -> Vec<u8> {
    if psbt.starts_with(MAGIC) { encoded(psbt) } else { psbt.iter().copied().filter(|it| !b" \t\r\n".contains(it)).collect() }
}

/// Base64, RFC 4648.
fn encoded(bytes: &[u8]) -> Vec<u8> {
    const LETTERS: &[u8; 64] = b"ABCDEFGHIJKLMNOPQRSTUVWXYZabcdefghijklmnopqrstuvwxyz0123456789+/";
    let group = |three: &[u8]| {
        let bits = (0..3).fold(0, |bits, i| (bits << 8) | usize::from(three.get(i).copied().unwrap_or(0)));
        [0, 1, 2, 3].map(|i| if i <= three.len() { LETTERS[(bits >> (18 - 6 * i)) & 63] } else { b'=' })
    };
    bytes.chunks(3).flat_map(group).collect()
}

/// The bytes of a whole line of base64.
fn decoded(line: &[u8]) -> Option<Vec<u8>> {
    let letter = |letter: &u8| match letter {
        b'A'..=b'Z' => Some(letter - b'A'),
        b'a'..=b'z' => Some(letter - b'a' + 26),
        b'0'..=b'9' => Some(letter - b'0' + 52),
        b'+' => Some(62),
        b'/' => Some(63),
        _ => None,
    };
    let mut bytes = Vec::with_capacity(line.len() / 4 * 3);
    let (mut bits, mut held) = (0_u32, 0);
    for it in line.iter().take_while(|it| **it != b'=') {
        (bits, held) = (((bits << 6) | u32::from(letter(it)?)) & 0xffff, held + 6);
        if held >= 8 {
            held -= 8;
            bytes.push(u8::try_from((bits >> held) & 0xff).ok()?);
        }
    }
    Some(bytes)
}

/// What the report of these words is read as.
fn told<T>(words: &[&str], psbt: &[u8], read: impl Fn(&str) -> Option<T>) -> Result<T, Error> {
    let (code, report) = psbt_answer(words, psbt)?;
    let report = String::from_utf8_lossy(&report);
    match code {
        MSAT_DONE | MSAT_PSBT_OPEN => read(&report).ok_or(Error::Other(code)),
        MSAT_PSBT_REFUSED => Err(refusal(&report).map_or(Error::Other(code), Error::Psbt)),
        MSAT_USAGE => Err(Error::Usage),
        _ => Err(Error::Other(code)),
    }
}

/// The refusal that a report tells.
fn refusal(report: &str) -> Option<PsbtRefusal> {
    let said = report.trim_end_matches('\n');
    let (line, words) = match said.strip_prefix("refused line ") {
        Some(rest) => rest.split_once(' ').and_then(|(line, words)| Some((Some(line.parse().ok()?), words)))?,
        None => (None, said.strip_prefix("refused psbt ")?),
    };
    let (name, place) = match words.split_once(" at ") {
        Some((name, place)) => (name, Some(place.parse().ok()?)),
        None => (words, None),
    };
    Some(PsbtRefusal { fault: names::psbt_fault(name).unwrap_or(PsbtFault::Other), place, line })
}

/// The report of `inspect`, read; none where it isn't one. Lines that this version doesn't know are passed over.
pub fn read_inspection(report: &str) -> Option<Inspection> {
    let (head, inputs) = by_input(report);
    let mut lines = head.into_iter();
    let [_, _, _, _, _, version, _, locktime, _, txid] = words(lines.next()?.strip_prefix("psbt ")?)?;
    let (mut outputs, mut fee, mut final_txid) = (Vec::new(), None, None);
    for line in lines {
        if let Some(rest) = line.strip_prefix("final txid ") {
            final_txid = Some(rest.to_owned());
        } else if let Some(rest) = line.strip_prefix("output ") {
            let [_, amount, script] = words(rest)?;
            outputs.push(Output { amount: amount.parse().ok()?, script: bytes(script)? });
        } else if let Some(rest) = line.strip_prefix("fee ") {
            fee = Some(fee_of(rest)?);
        }
    }
    let inputs = inputs.iter().map(|it| input(it)).collect::<Option<_>>()?;
    Some(Inspection {
        version: version.parse().ok()?,
        locktime: locktime.parse().ok()?,
        txid: txid.to_owned(),
        outputs,
        fee: fee?,
        inputs,
        final_txid,
    })
}

/// The report of `hashes`, read; none where it isn't one. Lines that this version doesn't know are passed over.
pub fn read_hashes(report: &str) -> Option<Vec<Hashes>> {
    let (head, inputs) = by_input(report);
    if head.is_empty() { inputs.iter().map(|it| hashes_of(it)).collect() } else { None }
}

/// The lines before those of inputs, and those of each input.
fn by_input(report: &str) -> (Vec<&str>, Vec<Vec<&str>>) {
    let (mut head, mut inputs) = (Vec::new(), Vec::<Vec<&str>>::new());
    for line in report.lines() {
        if line.starts_with("input ") {
            inputs.push(Vec::new());
        }
        inputs.last_mut().unwrap_or(&mut head).push(line);
    }
    (head, inputs)
}

/// So many words, a space between each.
fn words<const N: usize>(line: &str) -> Option<[&str; N]> {
    line.split(' ').collect::<Vec<_>>().try_into().ok()
}

fn bytes(digits: &str) -> Option<Vec<u8>> {
    if digits == "-" {
        return Some(Vec::new());
    }
    let digit = |it: u8| char::from(it).to_digit(16).and_then(|it| u8::try_from(it).ok());
    let pairs = digits.as_bytes().chunks(2).map(|pair| match pair {
        &[high, low] => Some(digit(high)? * 16 + digit(low)?),
        _ => None,
    });
    pairs.collect()
}

fn array<const N: usize>(digits: &str) -> Option<[u8; N]> {
    bytes(digits)?.try_into().ok()
}

/// A hash, or `-` for none.
fn hash(digits: &str) -> Option<Option<[u8; 32]>> {
    if digits == "-" { Some(None) } else { array(digits).map(Some) }
}

fn fee_of(told: &str) -> Option<Fee> {
    match told.split_once(' ') {
        Some((satoshis, "proved")) => satoshis.parse().ok().map(Fee::Proved),
        Some((satoshis, "claimed")) => satoshis.parse().ok().map(Fee::Claimed),
        None if told == "negative" => Some(Fee::Negative),
        None if told == "unknown" => Some(Fee::Unknown),
        _ => None,
    }
}

fn amount(told: &str) -> Option<Amount> {
    match told.split_once(' ') {
        Some((satoshis, "proved")) => satoshis.parse().ok().map(Amount::Proved),
        Some((satoshis, "claimed")) => satoshis.parse().ok().map(Amount::Claimed),
        None if told == "unknown" => Some(Amount::Unknown),
        _ => None,
    }
}

/// The number and the state of an input's first line.
fn state(line: &str) -> Option<(u64, State)> {
    let (number, name) = line.strip_prefix("input ")?.split_once(' ')?;
    let state = match name {
        "Final" => State::Final,
        "NoUtxo" => State::NoUtxo,
        "WrongUtxo" => State::WrongUtxo,
        "OtherOutput" => State::OtherOutput,
        "NoScript" => State::NoScript,
        "WrongScript" => State::WrongScript,
        "NoReading" => State::NoReading,
        "WrongSighash" => State::WrongSighash,
        "TooMany" => State::TooMany,
        "Unsatisfied" => State::Unsatisfied,
        "Ready" => State::Ready,
        _ => name.strip_prefix("Unfit ").and_then(not_sane).map_or_else(|| State::Other(name.to_owned()), State::Unfit),
    };
    Some((number.parse().ok()?, state))
}

fn not_sane(reason: &str) -> Option<NotSane> {
    match reason {
        "NoSignature" => Some(NotSane::NoSignature),
        "MixedLocks" => Some(NotSane::MixedLocks),
        "RepeatedKey" => Some(NotSane::RepeatedKey),
        _ => names::rule(reason.strip_prefix("Malleable ")?).map(NotSane::Malleable),
    }
}

/// How a signature is judged, by this word.
fn judgement(word: &str) -> Option<Judgement> {
    match word {
        "bad" => Some(Judgement::Bad),
        "high" => Some(Judgement::High),
        "good" => Some(Judgement::Good),
        _ => None,
    }
}

fn input(lines: &[&str]) -> Option<Input> {
    let (number, state) = state(lines.first()?)?;
    let [txid, index, _, sequence] = words(lines.get(1)?.strip_prefix("outpoint ")?)?;
    let mut found = Input {
        number,
        state,
        txid: txid.to_owned(),
        index: index.parse().ok()?,
        sequence: sequence.parse().ok()?,
        amount: amount(lines.get(2)?.strip_prefix("amount ")?)?,
        kind: None,
        signatures: Vec::new(),
        words: Vec::new(),
        text: None,
        policy: None,
        weight: None,
        asked: Vec::new(),
        most: None,
        is_vain: false,
    };
    for line in lines.get(3..)? {
        match line.split_once(' ').unwrap_or((line, "")) {
            ("kind", rest) => found.kind = Some(rest.to_owned()),
            ("signature", rest) => {
                let (key, rest) = rest.split_once(' ')?;
                let (kind, word) = rest.split_once(' ').unwrap_or((rest, ""));
                found.signatures.push((array(key)?, kind.parse().ok()?));
                found.words.extend(judgement(word));
            }
            ("text", text) => found.text = Some(text.to_owned()),
            ("policy", policy) => found.policy = Some(policy.to_owned()),
            ("ask", key) => found.asked.push(array(key)?),
            ("weight", rest) => match rest.strip_prefix("at most ") {
                Some(most) => found.most = Some(most.parse().ok()?),
                None => found.weight = Some(rest.parse().ok()?),
            },
            ("no", "plan") => found.is_vain = true,
            _ => {}
        }
    }
    Some(found)
}

fn hashes_of(lines: &[&str]) -> Option<Hashes> {
    let (number, state) = state(lines.first()?)?;
    let (mut asked, mut checks) = (None, Vec::new());
    for line in lines.get(1..)? {
        match line.split_once(' ') {
            Some(("sign" | "sign-other", rest)) => {
                let [kind, digits] = words(rest)?;
                asked = Some(Asked { hash_type: kind.parse().ok()?, hash: hash(digits)? });
            }
            Some(("check", rest)) => {
                let (key, rest) = rest.split_once(' ')?;
                let (signature, rest) = rest.split_once(' ')?;
                let (digits, word) = rest.split_once(' ').unwrap_or((rest, ""));
                let word = judgement(word);
                checks.push(Check { key: array(key)?, signature: bytes(signature)?, hash: hash(digits)?, word });
            }
            _ => {}
        }
    }
    Some(Hashes { number, state, asked, checks })
}
