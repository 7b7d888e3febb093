//! What `msat check`, `msat satisfy`, `msat plan` and `msat run` do, by plain Rust over trees in one room, to be measured beside the proved program. Refusals
//! aren't told apart.
//! Usage: satisfy_baseline check [--consensus] TEXT; satisfy_baseline [--malleable] TEXT, with an asset file on standard input;
//! satisfy_baseline plan TEXT, with a plan file; satisfy_baseline run, with a run file. The exit status is 0, 2 where `refused` is printed, 4 where there is no satisfaction, or 8 where the run is refused.
//! Usage: satisfy_baseline fragments, with an asset file on standard input. Prints a hash fragment for each of its preimages, of the four
//! functions in turn.

#[allow(dead_code)]
#[path = "check_baseline.rs"]
pub mod check_baseline;
#[allow(dead_code)]
#[path = "hash_baseline.rs"]
mod hash_baseline;
#[allow(dead_code)]
#[path = "interp_baseline.rs"]
mod interp_baseline;

use check_baseline::{HashKind, Key, Tree, Two, Valid, decoded, decoded_array, put_digits, valid, valid_by_consensus};
use hash_baseline::{ripemd160, ripemd_block_by_rounds, sha256};
use interp_baseline::{Locks, run};
use std::cell::OnceCell;
use std::collections::HashMap;
use std::io::{Read, stdin};
use std::process::exit;

// Sanity.

/// Each satisfaction needs a signature; each dissatisfaction does; there is one dissatisfaction that needs none.
#[derive(Clone, Copy)]
struct Mall {
    s: bool,
    f: bool,
    e: bool,
}

/// None where a requirement is false.
fn mall_of(tree: &Tree) -> Option<Mall> {
    let (fits, mall) = match tree {
        Tree::Zero | Tree::PkK(_) | Tree::PkH(_) | Tree::Multi(..) => (true, Mall { s: true, f: false, e: true }),
        Tree::One | Tree::Older(_) | Tree::After(_) => (true, Mall { s: false, f: true, e: false }),
        Tree::Hash(..) => (true, Mall { s: false, f: false, e: false }),
        Tree::AndOr(x, y, z) => {
            let (x, y, z) = (mall_of(x)?, mall_of(y)?, mall_of(z)?);
            let forced = x.s || y.f;
            (x.e && (x.s || y.s || z.s), Mall { s: z.s && (x.s || y.s), f: z.f && forced, e: z.e && forced })
        }
        Tree::Two(kind, x, z) => mall_of_two(*kind, mall_of(x)?, mall_of(z)?),
        Tree::Thresh(k, children) => {
            let all = children.iter().map(mall_of).collect::<Option<Vec<_>>>()?;
            let unsigned = all.iter().filter(|x| !x.s).count() as u64;
            (all.iter().all(|x| x.e) && unsigned <= *k, Mall { s: unsigned < *k, f: false, e: unsigned == 0 })
        }
        Tree::Wrap(letter, x) => {
            let x = mall_of(x)?;
            let mall = match letter {
                b'c' => Mall { s: true, ..x },
                b'd' => Mall { s: x.s, f: false, e: true },
                b'v' => Mall { s: x.s, f: true, e: false },
                b'j' => Mall { s: x.s, f: false, e: x.f },
                _ => x,
            };
            (true, mall)
        }
    };
    fits.then_some(mall)
}

fn mall_of_two(kind: Two, x: Mall, y: Mall) -> (bool, Mall) {
    let (both, either) = (x.s && y.s, x.s || y.s);
    match kind {
        Two::AndV => (true, Mall { s: either, f: x.s || y.f, e: false }),
        Two::AndB => (true, Mall { s: either, f: x.f && y.f || x.s && x.f || y.s && y.f, e: x.e && y.e && both }),
        Two::OrB => (x.e && y.e && either, Mall { s: both, f: false, e: true }),
        Two::OrC => (x.e && either, Mall { s: both, f: true, e: false }),
        Two::OrD => (x.e && either, Mall { s: both, f: y.f, e: y.e }),
        Two::OrI => (either, Mall { s: both, f: x.f && y.f, e: x.e && y.f || y.e && x.f }),
    }
}

/// Which kinds of timelocks there are.
#[derive(Clone, Copy, Default)]
struct Kinds {
    relative_time: bool,
    relative_height: bool,
    absolute_time: bool,
    absolute_height: bool,
}

impl Kinds {
    fn with(self, other: Kinds) -> Kinds {
        Kinds {
            relative_time: self.relative_time || other.relative_time,
            relative_height: self.relative_height || other.relative_height,
            absolute_time: self.absolute_time || other.absolute_time,
            absolute_height: self.absolute_height || other.absolute_height,
        }
    }

    fn mix_with(self, other: Kinds) -> bool {
        self.relative_time && other.relative_height
            || self.relative_height && other.relative_time
            || self.absolute_time && other.absolute_height
            || self.absolute_height && other.absolute_time
    }
}

/// None where a node mixes a time and a height.
fn kinds_of(tree: &Tree) -> Option<Kinds> {
    let none = Kinds::default();
    match tree {
        Tree::Older(n) if n & 1 << 22 != 0 => Some(Kinds { relative_time: true, ..none }),
        Tree::Older(_) => Some(Kinds { relative_height: true, ..none }),
        Tree::After(n) if *n >= 500_000_000 => Some(Kinds { absolute_time: true, ..none }),
        Tree::After(_) => Some(Kinds { absolute_height: true, ..none }),
        Tree::AndOr(x, y, z) => {
            let (x, y, z) = (kinds_of(x)?, kinds_of(y)?, kinds_of(z)?);
            (!x.mix_with(y)).then_some(x.with(y).with(z))
        }
        Tree::Two(kind, x, z) => {
            let (x, z) = (kinds_of(x)?, kinds_of(z)?);
            let needs_both = matches!(kind, Two::AndV | Two::AndB);
            (!needs_both || !x.mix_with(z)).then_some(x.with(z))
        }
        Tree::Thresh(k, children) => {
            let mut all = none;
            for child in children {
                let kinds = kinds_of(child)?;
                if *k >= 2 && all.mix_with(kinds) {
                    return None;
                }
                all = all.with(kinds);
            }
            Some(all)
        }
        Tree::Wrap(_, x) => kinds_of(x),
        _ => Some(none),
    }
}

/// Appends the keys of a tree.
fn keys_of(tree: &Tree, keys: &mut Vec<Key>) {
    match tree {
        Tree::PkK(key) | Tree::PkH(key) => keys.push(*key),
        Tree::Multi(_, all) => keys.extend_from_slice(all),
        Tree::AndOr(x, y, z) => [x, y, z].iter().for_each(|part| keys_of(part, keys)),
        Tree::Two(_, x, z) => [x, z].iter().for_each(|part| keys_of(part, keys)),
        Tree::Thresh(_, children) => children.iter().for_each(|child| keys_of(child, keys)),
        Tree::Wrap(_, x) => keys_of(x, keys),
        _ => {}
    }
}

/// Whether no key stands twice.
fn has_new_keys(tree: &Tree) -> bool {
    let mut keys = Vec::new();
    keys_of(tree, &mut keys);
    keys.sort_unstable();
    keys.windows(2).all(|pair| pair[0] != pair[1])
}

pub fn is_sane(tree: &Tree) -> bool {
    mall_of(tree).is_some_and(|top| top.s) && kinds_of(tree).is_some() && has_new_keys(tree)
}

// The height of the stacks.

/// The most items, and the most elements of both stacks at once, of all satisfactions or of all dissatisfactions.
#[derive(Clone, Copy)]
struct Highest {
    items: u64,
    height: u64,
}

fn only(items: u64, height: u64) -> Option<Highest> {
    Some(Highest { items, height })
}

/// One, which leaves so many elements of what it found, and then another.
fn then(left: u64, x: Option<Highest>, y: Option<Highest>) -> Option<Highest> {
    let (x, y) = (x?, y?);
    only(x.items + y.items, (x.height + y.items).max(left + y.height))
}

fn higher(x: Option<Highest>, y: Option<Highest>) -> Option<Highest> {
    match (x, y) {
        (Some(x), Some(y)) => only(x.items.max(y.items), x.height.max(y.height)),
        _ => x.or(y),
    }
}

fn at_least(height: u64, x: Option<Highest>) -> Option<Highest> {
    x.and_then(|x| only(x.items, x.height.max(height)))
}

/// The satisfactions and the dissatisfactions.
fn highest(tree: &Tree) -> (Option<Highest>, Option<Highest>) {
    match tree {
        Tree::Zero => (None, only(0, 1)),
        Tree::One | Tree::Older(_) | Tree::After(_) => (only(0, 1), None),
        Tree::PkK(_) => (only(1, 2), only(1, 2)),
        Tree::PkH(_) => (only(2, 4), only(2, 4)),
        Tree::Hash(..) => (only(1, 3), only(1, 3)),
        Tree::AndOr(x, y, z) => {
            let (x, y, z) = (highest(x), highest(y), highest(z));
            (higher(then(0, x.0, y.0), then(0, x.1, z.0)), then(0, x.1, z.1))
        }
        Tree::Two(kind, x, z) => {
            let (x, z) = (highest(x), highest(z));
            match kind {
                Two::AndV => (then(0, x.0, z.0), None),
                Two::AndB => (then(1, x.0, z.0), then(1, x.1, z.1)),
                Two::OrB => (higher(then(1, x.0, z.1), then(1, x.1, z.0)), then(1, x.1, z.1)),
                Two::OrC => (higher(x.0, then(0, x.1, z.0)), None),
                Two::OrD => (higher(at_least(2, x.0), then(0, x.1, z.0)), then(0, x.1, z.1)),
                Two::OrI => {
                    let behind = |x| then(0, only(1, 1), x);
                    (higher(behind(x.0), behind(z.0)), higher(behind(x.1), behind(z.1)))
                }
            }
        }
        Tree::Thresh(k, children) => {
            let parts: Vec<_> = children.iter().map(highest).collect();
            (at_least(2, highest_choice(*k as usize, &parts)), at_least(2, highest_choice(0, &parts)))
        }
        Tree::Multi(k, keys) => {
            let all = only(k + 1, keys.len() as u64 + k + 3);
            (all, all)
        }
        Tree::Wrap(letter, x) => {
            let x = highest(x);
            match letter {
                b'd' => (then(1, only(1, 2), x.0), only(1, 2)),
                b'j' => (then(0, only(0, 1), x.0), only(1, 2)),
                b'v' => (x.0, None),
                _ => x,
            }
        }
    }
}

/// k of the children satisfied, and the others dissatisfied.
fn highest_choice(k: usize, children: &[(Option<Highest>, Option<Highest>)]) -> Option<Highest> {
    let mut best = vec![None; k + 1];
    best[0] = only(0, 0);
    for (place, (sat, dsat)) in children.iter().enumerate().rev() {
        let left = u64::from(place == 0);
        for satisfied in (0..=k).rev() {
            let with = satisfied.checked_sub(1).and_then(|one_less| then(left, *sat, best[one_less]));
            best[satisfied] = higher(with, then(left, *dsat, best[satisfied]));
        }
    }
    best[k]
}

/// None where the text is refused.
pub fn check(text: &str, by_consensus: bool) -> Option<String> {
    let mut valid = if by_consensus { valid_by_consensus(text)? } else { valid(text)? };
    if by_consensus {
        valid.height = Some(highest(&valid.tree).0.map_or(0, |x| x.height));
    }
    let top = mall_of(&valid.tree).filter(|_| is_sane(&valid.tree))?;
    let letters = [(top.s, 's'), (top.f, 'f'), (top.e, 'e')];
    Some(valid.report(&letters.iter().filter(|(holds, _)| *holds).map(|(_, letter)| letter).collect::<String>()))
}

// The asset file.

/// Of a number only the whole ones of 32 bits are kept.
pub enum Value {
    Number(u32),
    Text(String),
    List(Vec<Value>),
    Object(Vec<(String, Value)>),
    Other,
}

impl Value {
    /// The last member of this name.
    pub fn member(&self, name: &str) -> Option<&Value> {
        match self {
            Value::Object(members) => members.iter().rev().find(|(key, _)| key == name).map(|(_, value)| value),
            _ => None,
        }
    }

    pub fn text(&self) -> Option<&str> {
        match self {
            Value::Text(text) => Some(text),
            _ => None,
        }
    }
}

struct Json<'t> {
    bytes: &'t [u8],
    at: usize,
}

impl Json<'_> {
    fn space(&mut self) {
        while matches!(self.bytes.get(self.at), Some(b' ' | b'\t' | b'\r' | b'\n')) {
            self.at += 1;
        }
    }

    /// Passes a byte with the space before it, where it is there.
    fn is_next(&mut self, byte: u8) -> bool {
        self.space();
        let is_there = self.bytes.get(self.at) == Some(&byte);
        self.at += is_there as usize;
        is_there
    }

    fn value(&mut self) -> Option<Value> {
        self.space();
        match self.bytes.get(self.at)? {
            b'{' => self.elements(b'}', |json| json.pair()).map(Value::Object),
            b'[' => self.elements(b']', |json| json.value()).map(Value::List),
            b'"' => self.text().map(Value::Text),
            b't' => self.word("true"),
            b'f' => self.word("false"),
            b'n' => self.word("null"),
            _ => self.number(),
        }
    }

    /// What stands between commas, from the opening to the closing bracket.
    fn elements<T>(&mut self, end: u8, read: impl Fn(&mut Self) -> Option<T>) -> Option<Vec<T>> {
        self.at += 1;
        let mut all = Vec::new();
        if self.is_next(end) {
            return Some(all);
        }
        loop {
            all.push(read(self)?);
            if self.is_next(end) {
                return Some(all);
            }
            self.is_next(b',').then_some(())?;
        }
    }

    fn pair(&mut self) -> Option<(String, Value)> {
        self.space();
        let name = self.text()?;
        self.is_next(b':').then_some(())?;
        Some((name, self.value()?))
    }

    fn text(&mut self) -> Option<String> {
        (self.bytes.get(self.at) == Some(&b'"')).then_some(())?;
        self.at += 1;
        let mut text = Vec::new();
        loop {
            let rest = &self.bytes[self.at..];
            let end = rest.iter().position(|b| matches!(b, b'"' | b'\\' | 0..0x20))?;
            text.extend_from_slice(&rest[..end]);
            self.at += end + 1;
            match rest[end] {
                b'"' => return String::from_utf8(text).ok(),
                b'\\' => text.extend_from_slice(self.escaped()?.encode_utf8(&mut [0; 4]).as_bytes()),
                _ => return None,
            }
        }
    }

    /// A character beyond 16 bits isn't read.
    fn escaped(&mut self) -> Option<char> {
        let letter = *self.bytes.get(self.at)?;
        self.at += 1;
        Some(match letter {
            b'"' | b'\\' | b'/' => letter.into(),
            b'b' => '\x08',
            b'f' => '\x0c',
            b'n' => '\n',
            b'r' => '\r',
            b't' => '\t',
            b'u' => {
                let digits = decoded(self.bytes.get(self.at..self.at + 4)?)?;
                self.at += 4;
                char::from_u32(u32::from(digits[0]) << 8 | u32::from(digits[1]))?
            }
            _ => return None,
        })
    }

    fn word(&mut self, word: &str) -> Option<Value> {
        self.bytes[self.at..].starts_with(word.as_bytes()).then_some(())?;
        self.at += word.len();
        Some(Value::Other)
    }

    fn number(&mut self) -> Option<Value> {
        let rest = &self.bytes[self.at..];
        let length = rest.iter().position(|b| !matches!(b, b'0'..=b'9' | b'-' | b'+' | b'.' | b'e' | b'E')).unwrap_or(rest.len());
        let digits = std::str::from_utf8(&rest[..length]).ok()?;
        self.at += length;
        digits.parse::<f64>().ok()?;
        Some(digits.parse().map_or(Value::Other, Value::Number))
    }
}

/// What a wallet holds. The preimages are hashed by a function when it is first asked for, and not before.
struct Assets {
    locks: Locks,
    /// By the keys.
    signatures: Vec<(Key, Vec<u8>)>,
    preimages: Vec<[u8; 32]>,
    /// SHA-256 of each preimage, with which HASH256 and HASH160 begin too.
    once: OnceCell<Vec<[u8; 32]>>,
    /// The preimages under their hash values, by the function's place in `HashKind`.
    by_hash: [OnceCell<HashMap<Digest, [u8; 32]>>; 4],
}

/// A hash value, with zeros behind one of 20 bytes.
type Digest = [u8; 32];

impl Assets {
    /// None where a key stands twice.
    fn new(locks: Locks, mut signatures: Vec<(Key, Vec<u8>)>, preimages: Vec<[u8; 32]>) -> Option<Assets> {
        signatures.sort_unstable_by(|first, second| first.0.cmp(&second.0));
        let is_new = signatures.windows(2).all(|pair| pair[0].0 != pair[1].0);
        is_new.then(|| Assets { locks, signatures, preimages, once: OnceCell::new(), by_hash: Default::default() })
    }

    fn signature(&self, key: &Key) -> Option<&[u8]> {
        let place = self.signatures.binary_search_by(|pair| pair.0.cmp(key)).ok()?;
        Some(&self.signatures[place].1)
    }

    fn preimage(&self, kind: HashKind, value: &[u8]) -> Option<&[u8]> {
        let known = self.by_hash[kind as usize].get_or_init(|| self.hashed(kind));
        known.get(&widened(value)).map(|preimage| preimage.as_slice())
    }

    /// The first of two with the same hash value is kept.
    fn hashed(&self, kind: HashKind) -> HashMap<Digest, [u8; 32]> {
        let once = || self.once.get_or_init(|| self.preimages.iter().map(|preimage| sha256(preimage)).collect());
        let digests: Vec<Digest> = match kind {
            HashKind::Sha256 => once().clone(),
            HashKind::Hash256 => once().iter().map(|digest| sha256(digest)).collect(),
            HashKind::Ripemd160 => self.preimages.iter().map(|preimage| ripemd(preimage)).collect(),
            HashKind::Hash160 => once().iter().map(|digest| ripemd(digest)).collect(),
        };
        let mut known = HashMap::with_capacity(digests.len());
        for (digest, preimage) in digests.into_iter().zip(&self.preimages) {
            known.entry(digest).or_insert(*preimage);
        }
        known
    }
}

fn digest(kind: HashKind, message: &[u8]) -> Digest {
    match kind {
        HashKind::Sha256 => sha256(message),
        HashKind::Hash256 => sha256(&sha256(message)),
        HashKind::Ripemd160 => ripemd(message),
        HashKind::Hash160 => ripemd(&sha256(message)),
    }
}

fn widened(value: &[u8]) -> Digest {
    let mut digest = [0; 32];
    digest[..value.len()].copy_from_slice(value);
    digest
}

fn ripemd(message: &[u8]) -> Digest {
    widened(&ripemd160(message, ripemd_block_by_rounds))
}

/// None where the file is refused, here and in what follows.
pub fn object_of(file: &[u8]) -> Option<Value> {
    if file.len() > 1_048_576 {
        return None;
    }
    let mut json = Json { bytes: file, at: 0 };
    let file = json.value()?;
    json.space();
    (json.at == json.bytes.len() && matches!(file, Value::Object(_))).then_some(file)
}

fn locks_of(file: &Value) -> Option<Locks> {
    Some(Locks {
        version: number(file, "version", 2)?,
        sequence: number(file, "sequence", 4_294_967_294)?,
        locktime: number(file, "locktime", 0)?,
    })
}

fn assets_of(file: &[u8]) -> Option<Assets> {
    let file = object_of(file)?;
    let signatures = list(&file, "signatures", 256)?.iter().map(signature_of).collect::<Option<Vec<_>>>()?;
    Assets::new(locks_of(&file)?, signatures, preimages_of(&file)?)
}

fn preimages_of(file: &Value) -> Option<Vec<[u8; 32]>> {
    list(file, "preimages", 256)?.iter().map(|text| decoded_array(text.text()?.as_bytes())).collect()
}

fn signature_of(pair: &Value) -> Option<(Key, Vec<u8>)> {
    let key: Key = decoded_array(pair.member("key")?.text()?.as_bytes())?;
    let signature = decoded(pair.member("sig")?.text()?.as_bytes())?;
    let fits = (key[0] == 2 || key[0] == 3) && (1..=73).contains(&signature.len());
    fits.then_some((key, signature))
}

fn number(file: &Value, name: &str, default: u32) -> Option<u32> {
    match file.member(name) {
        None => Some(default),
        Some(Value::Number(n)) => Some(*n),
        Some(_) => None,
    }
}

fn list<'f>(file: &'f Value, name: &str, most: usize) -> Option<&'f [Value]> {
    match file.member(name) {
        None => Some(&[]),
        Some(Value::List(elements)) if elements.len() <= most => Some(elements),
        Some(_) => None,
    }
}

// The choice.

/// What a stack weighs, and whether it has no signature.
#[derive(Clone, Copy)]
struct Way {
    weight: i64,
    is_free: bool,
}

const NOTHING: Option<Way> = Some(Way { weight: 0, is_free: true });

fn item(length: usize) -> Option<Way> {
    Some(Way { weight: 1 + length as i64, is_free: true })
}

fn signed(length: usize) -> Option<Way> {
    Some(Way { weight: 1 + length as i64, is_free: false })
}

fn both(x: Option<Way>, y: Option<Way>) -> Option<Way> {
    let (x, y) = (x?, y?);
    Some(Way { weight: x.weight + y.weight, is_free: x.is_free && y.is_free })
}

/// How a tree is satisfied and dissatisfied. A wrapper has its child's plan, with other ways.
#[derive(Default)]
struct Plan {
    sat: Option<Way>,
    dsat: Option<Way>,
    /// Whether the second option is taken.
    sat_is_second: bool,
    dsat_is_second: bool,
    /// The children of a threshold that are satisfied, the keys of a `multi` that sign.
    chosen: Vec<bool>,
    parts: Vec<Plan>,
}

impl Plan {
    fn leaf(sat: Option<Way>, dsat: Option<Way>) -> Plan {
        Plan { sat, dsat, ..Plan::default() }
    }
}

struct Choice<'a> {
    assets: &'a Assets,
    is_strict: bool,
    /// The hash values of 32 zero bytes that were asked for.
    of_zeros: [OnceCell<Digest>; 4],
}

impl<'a> Choice<'a> {
    fn plan(&self, tree: &Tree) -> Plan {
        match tree {
            Tree::Zero => Plan::leaf(None, NOTHING),
            Tree::One => Plan::leaf(NOTHING, None),
            Tree::PkK(key) => Plan::leaf(self.signature(key), item(0)),
            Tree::PkH(key) => Plan::leaf(both(self.signature(key), item(33)), both(item(0), item(33))),
            Tree::Older(n) => Plan::leaf(NOTHING.filter(|_| self.assets.locks.hold_older(*n)), None),
            Tree::After(n) => Plan::leaf(NOTHING.filter(|_| self.assets.locks.hold_after(*n)), None),
            Tree::Hash(kind, value) => {
                let of_zeros = self.of_zeros[*kind as usize].get_or_init(|| digest(*kind, &[0; 32]));
                let is_of_zeros = *of_zeros == widened(value);
                let sat = self.assets.preimage(*kind, value).and_then(|preimage| item(preimage.len()));
                Plan::leaf(sat, item(32).filter(|_| !is_of_zeros))
            }
            Tree::AndOr(x, y, z) => {
                let parts = [x, y, z].map(|part| self.plan(part));
                let [x, y, z] = &parts;
                let (sat, sat_is_second) = self.either(both(y.sat, x.sat), both(z.sat, x.dsat));
                let dsat = both(z.dsat, x.dsat);
                Plan { sat, dsat, sat_is_second, parts: parts.into(), ..Plan::default() }
            }
            Tree::Two(kind, x, z) => self.plan_of_two(*kind, [x, z].map(|part| self.plan(part))),
            Tree::Thresh(k, children) => self.threshold(*k as usize, children.iter().map(|child| self.plan(child)).collect()),
            Tree::Multi(k, keys) => self.multi(*k as usize, keys),
            Tree::Wrap(letter, x) => {
                let x = self.plan(x);
                match letter {
                    b'd' => Plan { sat: both(x.sat, item(1)), dsat: item(0), ..x },
                    b'v' => Plan { dsat: None, ..x },
                    b'j' => Plan { dsat: item(0), ..x },
                    _ => x,
                }
            }
        }
    }

    fn signature(&self, key: &Key) -> Option<Way> {
        self.assets.signature(key).and_then(|signature| signed(signature.len()))
    }

    fn plan_of_two(&self, kind: Two, parts: [Plan; 2]) -> Plan {
        let [x, z] = &parts;
        let none = both(z.dsat, x.dsat);
        let second = both(z.sat, x.dsat);
        let ((sat, sat_is_second), (dsat, dsat_is_second)) = match kind {
            Two::AndV => ((both(z.sat, x.sat), false), (None, false)),
            Two::AndB => ((both(z.sat, x.sat), false), (none, false)),
            Two::OrB => (self.either(both(z.dsat, x.sat), second), (none, false)),
            Two::OrC => (self.either(x.sat, second), (None, false)),
            Two::OrD => (self.either(x.sat, second), (none, false)),
            Two::OrI => (
                self.either(both(x.sat, item(1)), both(z.sat, item(0))),
                lighter(both(x.dsat, item(1)), both(z.dsat, item(0))),
            ),
        };
        Plan { sat, dsat, sat_is_second, dsat_is_second, parts: parts.into(), ..Plan::default() }
    }

    /// Of two options the one that is taken, and whether it is the second.
    fn either(&self, first: Option<Way>, second: Option<Way>) -> (Option<Way>, bool) {
        let is_free = |way: Option<Way>| self.is_strict && way.is_some_and(|way| way.is_free);
        if is_free(first) {
            (first, false)
        } else if is_free(second) {
            (second, true)
        } else {
            lighter(first, second)
        }
    }

    /// Satisfied are the children that must be, and those whose satisfaction adds least.
    fn threshold(&self, k: usize, parts: Vec<Plan>) -> Plan {
        let mut chosen = vec![false; parts.len()];
        let mut added = Vec::new();
        let mut left = k as i64;
        for (i, part) in parts.iter().enumerate() {
            let Some(sat) = part.sat else {
                continue;
            };
            match part.dsat {
                Some(dsat) if !self.is_strict || !sat.is_free => added.push((sat.weight - dsat.weight, i)),
                _ => {
                    chosen[i] = true;
                    left -= 1;
                }
            }
        }
        added.sort_unstable();
        for (_, i) in added.iter().take(left.max(0) as usize) {
            chosen[*i] = true;
        }
        let sat = if left < 0 || left > added.len() as i64 {
            None
        } else {
            parts.iter().zip(&chosen).fold(NOTHING, |sum, (part, chosen)| both(sum, if *chosen { part.sat } else { part.dsat }))
        };
        let dsat = parts.iter().fold(NOTHING, |sum, part| both(sum, part.dsat));
        Plan { sat, dsat, chosen, parts, ..Plan::default() }
    }

    /// The shortest signatures sign.
    fn multi(&self, k: usize, keys: &[Key]) -> Plan {
        let mut chosen = vec![false; keys.len()];
        let length = |(i, key): (usize, &Key)| Some((self.assets.signature(key)?.len(), i));
        let mut signatures: Vec<_> = keys.iter().enumerate().filter_map(length).collect();
        signatures.sort_unstable();
        let sat = signatures.get(..k).and_then(|shortest| {
            shortest.iter().fold(item(0), |sum, (length, i)| {
                chosen[*i] = true;
                both(sum, signed(*length))
            })
        });
        Plan { sat, dsat: Some(Way { weight: k as i64 + 1, is_free: true }), chosen, ..Plan::default() }
    }

    /// Puts a satisfaction or a dissatisfaction on a stack, by a plan that has it.
    fn put<'s>(&self, tree: &'s Tree, plan: &Plan, is_sat: bool, stack: &mut Vec<&'s [u8]>)
    where
        'a: 's,
    {
        match (tree, plan.parts.as_slice()) {
            (Tree::PkK(key), _) => stack.push(self.signature_or_empty(key, is_sat)),
            (Tree::PkH(key), _) => stack.extend([self.signature_or_empty(key, is_sat), key]),
            (Tree::Hash(kind, value), _) => {
                stack.push(self.assets.preimage(*kind, value).filter(|_| is_sat).unwrap_or(&[0; 32]));
            }
            (Tree::AndOr(x, y, z), [of_x, of_y, of_z]) => {
                if is_sat && !plan.sat_is_second {
                    self.put(y, of_y, true, stack);
                    self.put(x, of_x, true, stack);
                } else {
                    self.put(z, of_z, is_sat, stack);
                    self.put(x, of_x, false, stack);
                }
            }
            (Tree::Two(kind, x, z), [of_x, of_z]) => {
                let is_second = if is_sat { plan.sat_is_second } else { plan.dsat_is_second };
                match kind {
                    Two::AndV | Two::AndB => {
                        self.put(z, of_z, is_sat, stack);
                        self.put(x, of_x, is_sat, stack);
                    }
                    Two::OrI => {
                        let (part, plan, top): (_, _, &[u8]) = if is_second { (z, of_z, &[]) } else { (x, of_x, &[1]) };
                        self.put(part, plan, is_sat, stack);
                        stack.push(top);
                    }
                    _ => {
                        if !matches!(kind, Two::OrC | Two::OrD) || !is_sat || is_second {
                            self.put(z, of_z, is_second, stack);
                        }
                        self.put(x, of_x, is_sat && !is_second, stack);
                    }
                }
            }
            (Tree::Thresh(_, children), plans) => {
                for ((child, of_child), chosen) in children.iter().zip(plans).zip(&plan.chosen).rev() {
                    self.put(child, of_child, is_sat && *chosen, stack);
                }
            }
            (Tree::Multi(k, keys), _) => {
                stack.push(&[]);
                if is_sat {
                    let signers = keys.iter().zip(&plan.chosen).filter(|(_, chosen)| **chosen);
                    stack.extend(signers.map(|(key, _)| self.signature_or_empty(key, true)));
                } else {
                    stack.extend((0..*k).map(|_| &[] as &[u8]));
                }
            }
            (Tree::Wrap(b'd' | b'j', _), _) if !is_sat => stack.push(&[]),
            (Tree::Wrap(letter, x), _) => {
                self.put(x, plan, is_sat, stack);
                if *letter == b'd' {
                    stack.push(&[1]);
                }
            }
            _ => {}
        }
    }

    fn signature_or_empty(&self, key: &Key, is_sat: bool) -> &'a [u8] {
        self.assets.signature(key).filter(|_| is_sat).unwrap_or_default()
    }
}

/// The first option, unless the second weighs less; and whether it is the second.
fn lighter(first: Option<Way>, second: Option<Way>) -> (Option<Way>, bool) {
    let is_second = match (first, second) {
        (Some(first), Some(second)) => second.weight < first.weight,
        (first, _) => first.is_none(),
    };
    (if is_second { second } else { first }, is_second)
}

// The report.

fn put_size(witness: &mut Vec<u8>, size: usize) {
    if size < 253 {
        witness.push(size as u8);
    } else {
        witness.push(253);
        witness.extend_from_slice(&(size as u16).to_le_bytes());
    }
}

/// None where the interpreter refuses the stack.
fn report(valid: &Valid, assets: &Assets, stack: &[&[u8]]) -> Option<String> {
    let is_good = |key: &[u8], signature: &[u8]| {
        key.try_into().is_ok_and(|key: &Key| assets.signature(key) == Some(signature))
    };
    let (ops, peak, _) = run(&valid.script, stack, &assets.locks, is_good)?;
    let mut out = String::new();
    valid.put_script(&mut out);
    let mut witness = Vec::new();
    put_size(&mut witness, stack.len() + 1);
    for item in stack {
        out.push_str("item ");
        if item.is_empty() {
            out.push('-');
        }
        put_digits(&mut out, item);
        out.push('\n');
        put_size(&mut witness, item.len());
        witness.extend_from_slice(item);
    }
    put_size(&mut witness, valid.script.len());
    witness.extend_from_slice(&valid.script);
    out.push_str("witness ");
    put_digits(&mut out, &witness);
    let weight: usize = stack.iter().map(|item| 1 + item.len()).sum();
    out.push_str(&format!("\nreplay ops {ops} items {} weight {weight} peak {peak}\n", stack.len()));
    Some(out)
}

fn file() -> Vec<u8> {
    let mut file = Vec::new();
    stdin().read_to_end(&mut file).expect("an asset file");
    file
}

/// None where the text or the file is refused; Some(None) where there is no satisfaction. The file is read by the closure.
pub fn satisfy(text: &str, is_strict: bool, file: impl FnOnce() -> Vec<u8>) -> Option<Option<String>> {
    let valid = valid(text)?;
    if is_strict && !is_sane(&valid.tree) {
        return None;
    }
    let assets = assets_of(&file())?;
    let choice = Choice { assets: &assets, is_strict, of_zeros: Default::default() };
    let plan = choice.plan(&valid.tree);
    if plan.sat.is_none() {
        return Some(None);
    }
    let mut stack = Vec::new();
    choice.put(&valid.tree, &plan, true, &mut stack);
    Some(Some(report(&valid, &assets, &stack).expect("an accepted run")))
}

/// The signatures of a plan file: bytes of the lengths that are estimated. None where the file is refused.
fn estimated(file: &[u8]) -> Option<Assets> {
    let file = object_of(file)?;
    let pair = |pair: &Value| {
        let key: Key = decoded_array(pair.member("key")?.text()?.as_bytes())?;
        let length = number(pair, "length", 0).filter(|length| (1..=73).contains(length))?;
        matches!(key[0], 2 | 3).then(|| (key, vec![0; length as usize]))
    };
    let signatures = list(&file, "keys", 256)?.iter().map(pair).collect::<Option<_>>()?;
    Assets::new(locks_of(&file)?, signatures, preimages_of(&file)?)
}

/// None where the text or the file is refused; Some(None) where there is no satisfaction.
fn plan(text: &str) -> Option<Option<String>> {
    let valid = valid(text)?;
    if !is_sane(&valid.tree) {
        return None;
    }
    let assets = estimated(&file())?;
    let choice = Choice { assets: &assets, is_strict: true, of_zeros: Default::default() };
    let plan = choice.plan(&valid.tree);
    let Some(sat) = plan.sat else {
        return Some(None);
    };
    let mut keys = Vec::new();
    asked(&valid.tree, &plan, true, &mut keys);
    let mut out = String::new();
    for key in keys {
        out.push_str("ask ");
        put_digits(&mut out, key);
        out.push('\n');
    }
    out.push_str(&format!("weight at most {}\n", sat.weight));
    Some(Some(out))
}

/// Adds the keys that sign, in the order of the nodes.
fn asked<'t>(tree: &'t Tree, plan: &Plan, is_sat: bool, keys: &mut Vec<&'t Key>) {
    match (tree, plan.parts.as_slice()) {
        (Tree::PkK(key) | Tree::PkH(key), _) if is_sat => keys.push(key),
        (Tree::AndOr(x, y, z), [of_x, of_y, of_z]) => {
            let is_first = is_sat && !plan.sat_is_second;
            asked(x, of_x, is_first, keys);
            if is_first {
                asked(y, of_y, true, keys);
            } else {
                asked(z, of_z, is_sat, keys);
            }
        }
        (Tree::Two(kind, x, z), [of_x, of_z]) => {
            let is_both = matches!(kind, Two::AndV | Two::AndB);
            let is_second = if is_sat { plan.sat_is_second } else { plan.dsat_is_second };
            asked(x, of_x, is_sat && (is_both || !is_second), keys);
            asked(z, of_z, is_sat && (is_both || is_second), keys);
        }
        (Tree::Thresh(_, children), plans) => {
            for ((child, of_child), chosen) in children.iter().zip(plans).zip(&plan.chosen) {
                asked(child, of_child, is_sat && *chosen, keys);
            }
        }
        (Tree::Multi(_, own), _) if is_sat => {
            keys.extend(own.iter().zip(&plan.chosen).filter(|(_, chosen)| **chosen).map(|(key, _)| key));
        }
        (Tree::Wrap(letter, x), _) if is_sat || !matches!(letter, b'd' | b'j') => asked(x, plan, is_sat, keys),
        _ => {}
    }
}

/// The report of a run file's run. None where the file is refused; Some(None) where the run is.
fn run_file(file: &[u8]) -> Option<Option<String>> {
    let file = object_of(file)?;
    let digits = |value: &Value| decoded(value.text()?.as_bytes());
    let script = digits(file.member("script")?)?;
    let stack: Vec<Vec<u8>> = list(&file, "witness", 2_000)?.iter().map(digits).collect::<Option<_>>()?;
    let mut good: HashMap<Vec<u8>, Vec<Vec<u8>>> = HashMap::new();
    for pair in list(&file, "signatures", 256)? {
        good.entry(digits(pair.member("key")?)?).or_default().push(digits(pair.member("sig")?)?);
    }
    let locks = locks_of(&file)?;
    let is_good = |key: &[u8], sig: &[u8]| good.get(key).is_some_and(|sigs| sigs.iter().any(|it| it == sig));
    let Some((ops, peak, checks)) = run(&script, &stack, &locks, is_good) else {
        return Some(None);
    };
    let mut out = format!("accepted ops {ops} peak {peak}\n");
    for (key, sig) in checks {
        out.push_str("check ");
        put_digits(&mut out, &key);
        out.push(' ');
        put_digits(&mut out, &sig);
        out.push('\n');
    }
    Some(Some(out))
}

fn fragments() -> Option<String> {
    let file = Json { bytes: &file(), at: 0 }.value()?;
    let mut out = String::new();
    for (i, preimage) in list(&file, "preimages", 256)?.iter().enumerate() {
        let preimage = decoded(preimage.text()?.as_bytes())?;
        let (name, kind, length) = match i % 4 {
            0 => ("sha256", HashKind::Sha256, 32),
            1 => ("hash256", HashKind::Hash256, 32),
            2 => ("ripemd160", HashKind::Ripemd160, 20),
            _ => ("hash160", HashKind::Hash160, 20),
        };
        out.push_str(name);
        out.push('(');
        put_digits(&mut out, &digest(kind, &preimage)[..length]);
        out.push_str(")\n");
    }
    Some(out)
}

fn main() {
    let words: Vec<String> = std::env::args().skip(1).collect();
    let words: Vec<&str> = words.iter().map(String::as_str).collect();
    let answer = match words[..] {
        ["fragments"] => fragments().map(Some),
        ["run"] => run_file(&file()),
        ["check", text] => check(text, false).map(Some),
        ["check", "--consensus", text] => check(text, true).map(Some),
        ["plan", text] => plan(text),
        ["--malleable", text] => satisfy(text, false, file),
        [text] => satisfy(text, true, file),
        _ => panic!("a text"),
    };
    match answer {
        Some(Some(out)) => print!("{out}"),
        Some(None) if words == ["run"] => {
            println!("refused script");
            exit(8);
        }
        Some(None) => {
            println!("no satisfaction");
            exit(4);
        }
        None => {
            println!("refused");
            exit(2);
        }
    }
}
