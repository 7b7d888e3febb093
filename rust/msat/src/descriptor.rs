// SPDX-License-Identifier: MIT
//! Output descriptors (BIPs 380, 382, 383, 389): what `msat-descriptor check` and `msat-descriptor derive` tell, by types.
//!
//! The library answers, as the program does; the reading of its report into these types is tested on every row of examples/descriptors, and not
//! proved. Compare the first address with the wallet's before money goes there.
//!
//! ```
//! use msat::descriptor::{Network, derive};
//!
//! let descriptor = "wpkh(0279be667ef9dcbbac55a06295ce870b07029bfcdb2dce28d959f2815b16f81798)";
//! assert_eq!(derive(descriptor, Network::Own, 0, 0)?.address, "bc1qw508d6qejxtdg4y5r3zarvary0c5xw7kv8f3t4");
//! # Ok::<(), msat::Error>(())
//! ```

use crate::calls::descriptor_answer;
use crate::error::{DescriptorRefusal, Error};
use msat_sys::{MSAT_DESCRIPTOR_REFUSED, MSAT_DESCRIPTOR_UNFIT, MSAT_DONE, MSAT_USAGE};
use std::ops::Range;

/// The network of addresses.
#[derive(Clone, Copy, Debug, Default, PartialEq, Eq, Hash)]
#[non_exhaustive]
pub enum Network {
    /// That of test where the descriptor has a `tpub`, and else the main one.
    #[default]
    Own,
    Test,
    Regtest,
}

/// What a descriptor is.
#[derive(Clone, Debug, PartialEq, Eq, Hash)]
#[non_exhaustive]
pub struct Descriptor {
    /// Its text as it came, with its checksum.
    pub text: String,
    /// `wsh`, `sh(wsh)`, `wpkh` or `sh(wpkh)`.
    pub kind: String,
    /// How many key expressions it has.
    pub keys: u32,
    /// Whether it goes by an index.
    pub is_ranged: bool,
    /// How many branches it has.
    pub branches: u32,
    /// Of a condition that is sane at branch 0 and index 0.
    pub condition: Option<Condition>,
    /// Why there is no sane condition at branch 0 and index 0.
    pub unfit: Option<String>,
}

/// What is known of a sane condition: its type letters, and its limits.
#[derive(Clone, Debug, PartialEq, Eq, Hash)]
#[non_exhaustive]
pub struct Condition {
    pub ty: String,
    pub size: u64,
    pub ops: u64,
    pub items: u64,
    pub weight: u64,
}

/// What a descriptor gives at an index.
#[derive(Clone, Debug, PartialEq, Eq, Hash)]
#[non_exhaustive]
pub struct Derived {
    pub index: u32,
    pub address: String,
    /// The output's script.
    pub output: Vec<u8>,
    /// The witness program's script: the output's, and of the kinds `sh(..)` the redeem script.
    pub program: Vec<u8>,
    /// The Script of a condition; of a single key it is empty.
    pub script: Vec<u8>,
    /// The text of a condition, as `msat` takes it; of a single key it is empty.
    pub text: String,
    /// Each key, in the text's order.
    pub keys: Vec<DerivedKey>,
}

/// A key, and where it comes from.
#[derive(Clone, Debug, PartialEq, Eq, Hash)]
#[non_exhaustive]
pub struct DerivedKey {
    pub key: [u8; 33],
    /// The fingerprint of the key from which the steps lead to this one.
    pub fingerprint: [u8; 4],
    /// The steps: to hardened ones 2^31 is added.
    pub steps: Vec<u32>,
}

/// What a descriptor is, and whether its condition is sane.
pub fn check(descriptor: &str) -> Result<Descriptor, Error> {
    told(&["check", descriptor], read_check)
}

/// What a descriptor gives at an index of a branch.
pub fn derive(descriptor: &str, network: Network, branch: u32, index: u32) -> Result<Derived, Error> {
    let all = derive_all(descriptor, network, branch, index..index.saturating_add(1))?;
    all.into_iter().next().ok_or(Error::Other(MSAT_DONE))
}

/// What a descriptor gives at each of some indices of a branch: at most 10,000 in one call.
pub fn derive_all(descriptor: &str, network: Network, branch: u32, indices: Range<u32>) -> Result<Vec<Derived>, Error> {
    let branch = branch.to_string();
    let (index, count) = (indices.start.to_string(), indices.end.saturating_sub(indices.start).to_string());
    let mut words = vec!["derive"];
    match network {
        Network::Own => {}
        Network::Test => words.push("--testnet"),
        Network::Regtest => words.push("--regtest"),
    }
    words.extend(["--branch", &branch, descriptor, &index, &count]);
    told(&words, read_derived)
}

/// What the report of these words is read as.
fn told<T>(words: &[&str], read: impl Fn(&str) -> Option<T>) -> Result<T, Error> {
    let (code, report) = descriptor_answer(words, b"")?;
    let report = String::from_utf8_lossy(&report);
    match code {
        MSAT_DONE | MSAT_DESCRIPTOR_UNFIT => read(&report).ok_or(Error::Other(code)),
        MSAT_DESCRIPTOR_REFUSED => Err(refusal(&report).map_or(Error::Other(code), Error::Descriptor)),
        MSAT_USAGE => Err(Error::Usage),
        _ => Err(Error::Other(code)),
    }
}

/// The refusal that a report tells.
fn refusal(report: &str) -> Option<DescriptorRefusal> {
    let said = report.trim_end_matches('\n');
    let (at, reason) = match said.strip_prefix("refused branch ") {
        Some(rest) => {
            let (branch, rest) = rest.split_once(" index ")?;
            let (index, reason) = rest.split_once(' ')?;
            (Some((branch.parse().ok()?, index.parse().ok()?)), reason)
        }
        None => (None, said.strip_prefix("refused descriptor ")?),
    };
    let place = match reason.split_once(" at ") {
        Some((_, place)) => Some(place.parse().ok()?),
        None => None,
    };
    Some(DescriptorRefusal { reason: reason.to_owned(), place, at })
}

/// The report of `check`, read; none where it isn't one. Lines that this version doesn't know are passed over.
pub fn read_check(report: &str) -> Option<Descriptor> {
    let told = |name: &str| report.lines().find_map(|line| line.strip_prefix(name)?.strip_prefix(' '));
    let condition = match (told("type"), told("limits")) {
        (Some(ty), Some(limits)) => Some(condition(ty, limits)?),
        _ => None,
    };
    Some(Descriptor {
        text: told("descriptor")?.to_owned(),
        kind: told("kind")?.to_owned(),
        keys: told("keys")?.parse().ok()?,
        is_ranged: told("ranged")? == "yes",
        branches: told("branches")?.parse().ok()?,
        condition,
        unfit: told("unfit").map(str::to_owned),
    })
}

fn condition(ty: &str, limits: &str) -> Option<Condition> {
    let words: Vec<&str> = limits.split(' ').collect();
    let number = |name: &str| words.iter().position(|it| *it == name).and_then(|at| words.get(at + 1)?.parse().ok());
    Some(Condition {
        ty: ty.to_owned(),
        size: number("size")?,
        ops: number("ops")?,
        items: number("items")?,
        weight: number("weight")?,
    })
}

/// The report of `derive`, read; none where it isn't one. Lines that this version doesn't know are passed over.
pub fn read_derived(report: &str) -> Option<Vec<Derived>> {
    let mut parts: Vec<Vec<&str>> = Vec::new();
    for line in report.lines() {
        if line.starts_with("index ") {
            parts.push(Vec::new());
        }
        parts.last_mut()?.push(line);
    }
    parts.iter().map(|lines| derived(lines)).collect()
}

fn derived(lines: &[&str]) -> Option<Derived> {
    let told = |name: &str| lines.iter().find_map(|line| line.strip_prefix(name)?.strip_prefix(' '));
    let program = bytes(told("program")?)?;
    let keys = lines.iter().filter_map(|line| line.strip_prefix("key "));
    Some(Derived {
        index: told("index")?.parse().ok()?,
        address: told("address")?.to_owned(),
        output: told("output").map_or_else(|| Some(program.clone()), bytes)?,
        program,
        script: told("script").map_or_else(|| Some(Vec::new()), bytes)?,
        text: told("text").unwrap_or_default().to_owned(),
        keys: keys.map(key).collect::<Option<_>>()?,
    })
}

fn key(line: &str) -> Option<DerivedKey> {
    let (key, path) = line.split_once(' ')?;
    let mut words = path.split('/');
    Some(DerivedKey {
        key: bytes(key)?.try_into().ok()?,
        fingerprint: bytes(words.next()?)?.try_into().ok()?,
        steps: words.map(step).collect::<Option<_>>()?,
    })
}

fn step(word: &str) -> Option<u32> {
    match word.strip_suffix('h') {
        Some(number) => number.parse::<u32>().ok()?.checked_add(1 << 31),
        None => word.parse().ok(),
    }
}

fn bytes(digits: &str) -> Option<Vec<u8>> {
    let pair = |at: usize| u8::from_str_radix(digits.get(at..at + 2)?, 16).ok();
    (0..digits.len()).step_by(2).map(pair).collect()
}
