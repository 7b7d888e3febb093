//! What `msat-psbt finalize` does with a PSBT of version 0 or 2 that came as bytes, by plain Rust over slices of it, to be measured beside the proved
//! program: no value is copied but into the output, and a script's nodes lie in one list that each input uses again. Refusals aren't told apart.
//! Usage: psbt_baseline, with a PSBT on standard input. The exit status is 0, 4 where an input stays open, or 3 where `refused` is printed.

#[allow(dead_code)]
#[path = "hash_baseline.rs"]
mod hash_baseline;

use hash_baseline::{ripemd160, ripemd_block_by_rounds, sha256};
use std::io::{Read, Write, stdin, stdout};
use std::process::exit;

// Bytes.

/// What is left to be read.
#[derive(Clone, Copy)]
struct Rest<'a>(&'a [u8]);

/// None where the bytes end too soon, and where a size isn't in its shortest spelling.
impl<'a> Rest<'a> {
    fn take(&mut self, count: usize) -> Option<&'a [u8]> {
        let (taken, rest) = self.0.split_at_checked(count)?;
        self.0 = rest;
        Some(taken)
    }

    fn number(&mut self) -> Option<u32> {
        Some(u32::from_le_bytes(self.take(4)?.try_into().ok()?))
    }

    fn size(&mut self) -> Option<usize> {
        let (first, rest) = self.0.split_first()?;
        self.0 = rest;
        let (width, least) = match first {
            0xfd => (2, 0xfd),
            0xfe => (4, 0x1_0000),
            0xff => (8, 0x1_0000_0000),
            _ => return Some(*first as usize),
        };
        let mut bytes = [0; 8];
        bytes[..width].copy_from_slice(self.take(width)?);
        let size = u64::from_le_bytes(bytes);
        (size >= least).then_some(size as usize)
    }

    fn text(&mut self) -> Option<&'a [u8]> {
        let size = self.size()?;
        self.take(size)
    }

    fn is_empty(&self) -> bool {
        self.0.is_empty()
    }
}

fn put_size(out: &mut Vec<u8>, size: usize) {
    match size {
        0..=0xfc => out.push(size as u8),
        0xfd..=0xffff => {
            out.push(0xfd);
            out.extend_from_slice(&(size as u16).to_le_bytes());
        }
        _ => {
            out.push(0xfe);
            out.extend_from_slice(&(size as u32).to_le_bytes());
        }
    }
}

fn hash256(bytes: &[u8]) -> [u8; 32] {
    sha256(&sha256(bytes))
}

fn hash160(bytes: &[u8]) -> [u8; 20] {
    ripemd160(&sha256(bytes), ripemd_block_by_rounds)
}

// Transactions.

struct Spend<'a> {
    id: &'a [u8],
    index: u32,
    sequence: u32,
}

struct Transaction<'a> {
    version: u32,
    spends: Vec<Spend<'a>>,
    outputs: usize,
    locktime: u32,
}

fn four_bytes(bytes: &[u8]) -> Option<u32> {
    Some(u32::from_le_bytes(bytes.try_into().ok()?))
}

/// Whether no outpoint stands twice.
fn are_new(spends: &[Spend<'_>]) -> bool {
    let mut outpoints: Vec<_> = spends.iter().map(|spend| (spend.id, spend.index)).collect();
    outpoints.sort_unstable();
    outpoints.windows(2).all(|pair| pair[0] != pair[1])
}

/// The transaction of a PSBT of version 0: no scriptSig, and no outpoint twice.
fn unsigned(bytes: &[u8]) -> Option<Transaction<'_>> {
    let mut rest = Rest(bytes);
    let version = rest.number()?;
    let count = rest.size()?;
    let mut spends = Vec::with_capacity(count.min(bytes.len() / 41));
    for _ in 0..count {
        let (id, index) = (rest.take(32)?, rest.number()?);
        if rest.size()? != 0 {
            return None;
        }
        spends.push(Spend { id, index, sequence: rest.number()? });
    }
    let outputs = rest.size()?;
    for _ in 0..outputs {
        output(&mut rest)?;
    }
    let locktime = rest.number()?;
    (rest.is_empty() && are_new(&spends)).then_some(Transaction { version, spends, outputs, locktime })
}

/// The locks that inputs of version 2 ask for, by BIP 370's rule.
#[derive(Default)]
struct Locks {
    times: Option<u32>,
    heights: Option<u32>,
    /// An input has a time and no height, or a height and no time.
    without_height: bool,
    without_time: bool,
}

impl Locks {
    /// Some(()) while one kind of lock is left that every input takes.
    fn add(&mut self, time: Option<u32>, height: Option<u32>) -> Option<()> {
        self.times = self.times.max(time);
        self.heights = self.heights.max(height);
        self.without_height |= time.is_some() && height.is_none();
        self.without_time |= height.is_some() && time.is_none();
        (!self.without_height || !self.without_time).then_some(())
    }

    fn locktime(&self, fallback: u32) -> u32 {
        let asked = if self.without_height { self.times } else { self.heights };
        asked.unwrap_or(fallback)
    }
}

/// What the map of an input of version 2 says of the transaction.
fn spend_of<'a>(pairs: &[Pair<'a>], locks: &mut Locks) -> Option<Spend<'a>> {
    let (mut id, mut index, mut sequence, mut time, mut height) = (None, None, u32::MAX, None, None);
    for pair in pairs {
        match pair.kind {
            0x0e => id = Some(pair.value),
            0x0f => index = Some(four_bytes(pair.value)?),
            0x10 => sequence = four_bytes(pair.value)?,
            0x11 => time = Some(four_bytes(pair.value)?),
            0x12 => height = Some(four_bytes(pair.value)?),
            _ => {}
        }
    }
    locks.add(time, height)?;
    Some(Spend { id: id.filter(|id| id.len() == 32)?, index: index?, sequence })
}

fn output<'a>(rest: &mut Rest<'a>) -> Option<&'a [u8]> {
    let from = rest.0;
    rest.take(8)?;
    rest.text()?;
    Some(&from[..from.len() - rest.0.len()])
}

/// The id of a previous transaction, and its output with this number.
fn previous(bytes: &[u8], number: usize) -> Option<([u8; 32], Option<&[u8]>)> {
    let mut rest = Rest(bytes);
    rest.take(4)?;
    let is_marked = rest.0.first() == Some(&0);
    if is_marked && rest.take(2)? != [0, 1] {
        return None;
    }
    let body = rest.0;
    let count = rest.size()?;
    for _ in 0..count {
        rest.take(36)?;
        rest.text()?;
        rest.take(4)?;
    }
    let outputs = rest.size()?;
    let mut spent = None;
    for i in 0..outputs {
        let this = output(&mut rest)?;
        if i == number {
            spent = Some(this);
        }
    }
    let body = &body[..body.len() - rest.0.len()];
    if is_marked {
        (count > 0).then_some(())?;
        for _ in 0..count {
            witness(&mut rest)?;
        }
    }
    let locktime = rest.take(4)?;
    rest.is_empty().then_some(())?;
    let id = if is_marked { hash256(&[&bytes[..4], body, locktime].concat()) } else { hash256(bytes) };
    Some((id, spent))
}

fn witness(rest: &mut Rest<'_>) -> Option<()> {
    for _ in 0..rest.size()? {
        rest.text()?;
    }
    Some(())
}

// Maps.

#[derive(Clone, Copy)]
struct Pair<'a> {
    kind: usize,
    data: &'a [u8],
    value: &'a [u8],
    whole: &'a [u8],
}

/// The pairs of the next map, whose keys differ, and the map's bytes.
fn map<'a>(rest: &mut Rest<'a>, pairs: &mut Vec<Pair<'a>>, keys: &mut Vec<&'a [u8]>) -> Option<&'a [u8]> {
    let from = rest.0;
    pairs.clear();
    keys.clear();
    loop {
        let start = rest.0;
        let key = rest.text()?;
        if key.is_empty() {
            break;
        }
        let value = rest.text()?;
        let mut inside = Rest(key);
        let kind = inside.size()?;
        keys.push(key);
        pairs.push(Pair { kind, data: inside.0, value, whole: &start[..start.len() - rest.0.len()] });
    }
    let is_new = if keys.len() <= 12 {
        keys.iter().enumerate().all(|(i, key)| !keys[..i].contains(key))
    } else {
        keys.sort_unstable();
        keys.windows(2).all(|pair| pair[0] != pair[1])
    };
    is_new.then(|| &from[..from.len() - rest.0.len()])
}

/// Whether a map of an output has the forms of its version.
fn is_of_output(pairs: &[Pair<'_>], version: u32) -> bool {
    let mut fields = 0;
    let are_good = pairs.iter().all(|Pair { kind, data, value, .. }| {
        fields += usize::from(matches!(kind, 3 | 4));
        match kind {
            0 | 1 | 4 => data.is_empty(),
            2 => is_key(data) && value.len() >= 4 && value.len() % 4 == 0,
            3 => data.is_empty() && value.len() == 8,
            _ => true,
        }
    });
    are_good && fields == if version == 2 { 2 } else { 0 }
}

fn is_key(data: &[u8]) -> bool {
    matches!((data.len(), data.first()), (33, Some(2 | 3)) | (65, Some(4)))
}

fn is_der(sig: &[u8]) -> bool {
    let number = |at: usize| {
        let length = *sig.get(at + 1).filter(|_| sig[at] == 2)? as usize;
        let bytes = sig.get(at + 2..at + 2 + length)?;
        let is_good = match bytes {
            [] | [0] => false,
            [0, second, ..] => second & 0x80 != 0,
            [first, ..] => first & 0x80 == 0,
        };
        is_good.then_some(at + 2 + length)
    };
    (9..=73).contains(&sig.len())
        && sig[0] == 0x30
        && sig[1] as usize == sig.len() - 3
        && number(2).and_then(|second| number(second)) == Some(sig.len() - 1)
}

/// Whether a pair of an input's map has its form; the previous transaction's is seen to where it is read.
fn has_form(pair: &Pair<'_>) -> bool {
    let Pair { kind, data, value, .. } = *pair;
    let ends = |rest: Rest<'_>| rest.is_empty();
    match kind {
        0 | 4 | 5 | 7 => data.is_empty(),
        1 => {
            let mut rest = Rest(value);
            data.is_empty() && output(&mut rest).is_some() && ends(rest)
        }
        2 => is_key(data) && is_der(value),
        3 => data.is_empty() && value.len() == 4,
        6 => is_key(data) && value.len() >= 4 && value.len() % 4 == 0,
        8 => {
            let mut rest = Rest(value);
            data.is_empty() && witness(&mut rest).is_some() && ends(rest)
        }
        0x0a => data.len() == 20 && ripemd160(value, ripemd_block_by_rounds) == data,
        0x0b => data.len() == 32 && sha256(value) == data,
        0x0c => data.len() == 20 && hash160(value) == data,
        0x0d => data.len() == 32 && hash256(value) == data,
        0x0e => data.is_empty() && value.len() == 32,
        0x0f | 0x10 => data.is_empty() && value.len() == 4,
        0x11 => data.is_empty() && four_bytes(value).is_some_and(|time| time >= 500_000_000),
        0x12 => data.is_empty() && four_bytes(value).is_some_and(|height| (1..500_000_000).contains(&height)),
        _ => true,
    }
}

// Scripts.

#[derive(Clone, Copy, PartialEq)]
enum Item<'s> {
    Push(&'s [u8]),
    Code(u8),
}

const SMALL: [u8; 17] = [0, 1, 2, 3, 4, 5, 6, 7, 8, 9, 10, 11, 12, 13, 14, 15, 16];

/// False where the bytes end inside an instruction, a push isn't in its shortest spelling, or VERIFY isn't written into what is before it.
fn items<'s>(script: &'s [u8], all: &mut Vec<Item<'s>>) -> Option<()> {
    all.clear();
    let mut rest = Rest(script);
    while let Some(&byte) = rest.0.first() {
        rest.take(1)?;
        let item = match byte {
            0 => Item::Push(&[]),
            1..=0x4b => {
                let bytes = rest.take(byte as usize)?;
                if bytes.len() == 1 && matches!(bytes[0], 1..=16 | 0x81) {
                    return None;
                }
                Item::Push(bytes)
            }
            0x51..=0x60 => Item::Push(&SMALL[(byte - 0x50) as usize..=(byte - 0x50) as usize]),
            0x4c..=0x50 => return None,
            0x69 if matches!(all.last(), Some(Item::Code(0x87 | 0xac | 0xae))) => return None,
            _ => Item::Code(byte),
        };
        all.push(item);
    }
    Some(())
}

fn number(bytes: &[u8]) -> Option<u64> {
    let fits = bytes.len() <= 5 && bytes.last().is_none_or(|last| last & 0x80 == 0 && *last != 0 || last & 0x80 == 0 && bytes.len() > 1 && bytes[bytes.len() - 2] & 0x80 != 0);
    fits.then(|| bytes.iter().rev().fold(0, |sum, byte| sum << 8 | u64::from(*byte)))
}

#[derive(Clone, Copy, PartialEq)]
enum Two {
    AndV,
    AndB,
    OrB,
    OrC,
    OrD,
    OrI,
}

/// A node, whose children stand before it in the list.
#[derive(Clone, Copy)]
enum Node<'s> {
    Zero,
    One,
    PkK(&'s [u8]),
    PkH(&'s [u8]),
    Older(u64),
    After(u64),
    /// The opcode of the hash and the value.
    Hash(u8, &'s [u8]),
    AndOr(usize, usize, usize),
    Two(Two, usize, usize),
    /// So many of the children in this range of the list of children.
    Thresh(u64, usize, usize),
    /// So many of the keys in this range of the list of keys.
    Multi(u64, usize, usize),
    Wrap(u8, usize),
}

/// What is used again for each input.
#[derive(Default)]
struct Room<'s> {
    items: Vec<Item<'s>>,
    nodes: Vec<Node<'s>>,
    facts: Vec<Facts>,
    children: Vec<usize>,
    keys: Vec<&'s [u8]>,
    /// Of each child of a threshold and of each key of a `multi`: whether it is chosen.
    chosen_children: Vec<bool>,
    chosen_keys: Vec<bool>,
}

struct Reader<'s, 'r> {
    room: &'r mut Room<'s>,
    pairs: &'r [Pair<'s>],
}

impl<'s> Reader<'s, '_> {
    fn add(&mut self, node: Node<'s>) -> usize {
        self.room.nodes.push(node);
        self.room.nodes.len() - 1
    }

    fn is_next(&mut self, code: u8) -> bool {
        let is_there = self.room.items.last() == Some(&Item::Code(code));
        if is_there {
            self.room.items.pop();
        }
        is_there
    }

    fn expect(&mut self, code: u8) -> Option<()> {
        self.is_next(code).then_some(())
    }

    fn push(&mut self) -> Option<&'s [u8]> {
        match self.room.items.pop()? {
            Item::Push(bytes) => Some(bytes),
            Item::Code(_) => None,
        }
    }

    fn key(&mut self) -> Option<&'s [u8]> {
        self.push().filter(|bytes| bytes.len() == 33 && is_key(bytes))
    }

    fn wrap(&mut self, letter: u8, x: usize) -> Option<usize> {
        Some(self.add(Node::Wrap(letter, x)))
    }

    /// A chain of `and_v`, up to the opcode that stands before it.
    fn chain(&mut self) -> Option<usize> {
        let mut node = self.single()?;
        while !matches!(self.room.items.last(), None | Some(Item::Code(0x63 | 0x64 | 0x67 | 0x6b | 0x7c))) {
            let before = self.single()?;
            node = self.add(Node::Two(Two::AndV, before, node));
        }
        Some(node)
    }

    fn single(&mut self) -> Option<usize> {
        let code = match self.room.items.pop()? {
            Item::Code(code) => code,
            Item::Push([]) => return Some(self.add(Node::Zero)),
            Item::Push([1]) => return Some(self.add(Node::One)),
            Item::Push(bytes) => return (bytes.len() == 33 && is_key(bytes)).then(|| self.add(Node::PkK(bytes))),
        };
        match code {
            0xb2 => number(self.push()?).map(|n| self.add(Node::Older(n))),
            0xb1 => number(self.push()?).map(|n| self.add(Node::After(n))),
            0x87 => self.compared(false),
            0x88 => self.compared(true),
            0xac => self.single().and_then(|x| self.wrap(b'c', x)),
            0xad => {
                let x = self.single()?;
                let x = self.wrap(b'c', x)?;
                self.wrap(b'v', x)
            }
            0xae => self.multi(),
            0xaf => self.multi().and_then(|x| self.wrap(b'v', x)),
            0x69 => self.single().and_then(|x| self.wrap(b'v', x)),
            0x92 => self.single().and_then(|x| self.wrap(b'n', x)),
            0x9a => self.both(Two::AndB),
            0x9b => self.both(Two::OrB),
            0x68 => self.branches(),
            _ => None,
        }
    }

    fn both(&mut self, kind: Two) -> Option<usize> {
        let second = self.side()?;
        let first = self.single()?;
        Some(self.add(Node::Two(kind, first, second)))
    }

    fn side(&mut self) -> Option<usize> {
        let (letter, before) = if self.is_next(0x6c) { (b'a', 0x6b) } else { (b's', 0x7c) };
        let x = self.chain()?;
        self.expect(before)?;
        self.wrap(letter, x)
    }

    fn branches(&mut self) -> Option<usize> {
        let last = self.chain()?;
        if self.is_next(0x67) {
            let first = self.chain()?;
            if self.is_next(0x63) {
                return Some(self.add(Node::Two(Two::OrI, first, last)));
            }
            self.expect(0x64)?;
            let x = self.single()?;
            return Some(self.add(Node::AndOr(x, last, first)));
        }
        if self.is_next(0x63) {
            if self.is_next(0x76) {
                return self.wrap(b'd', last);
            }
            self.expect(0x92)?;
            self.expect(0x82)?;
            return self.wrap(b'j', last);
        }
        self.expect(0x64)?;
        let kind = if self.is_next(0x73) { Two::OrD } else { Two::OrC };
        let x = self.single()?;
        Some(self.add(Node::Two(kind, x, last)))
    }

    fn compared(&mut self, is_verified: bool) -> Option<usize> {
        let given = self.push()?;
        let node = match self.room.items.last() {
            Some(Item::Code(code @ (0xa6 | 0xa8 | 0xa9 | 0xaa))) => {
                let code = *code;
                self.room.items.pop();
                if is_verified && code == 0xa9 && self.is_next(0x76) {
                    let keys = self.pairs.iter().filter(|pair| matches!(pair.kind, 2 | 6) && pair.data.len() == 33);
                    let key = keys.map(|pair| pair.data).find(|key| hash160(key) == given)?;
                    return Some(self.add(Node::PkH(key)));
                }
                self.expect(0x88)?;
                (number(self.push()?)? == 32).then_some(())?;
                self.expect(0x82)?;
                (given.len() == if matches!(code, 0xa8 | 0xaa) { 32 } else { 20 }).then_some(())?;
                self.add(Node::Hash(code, given))
            }
            _ => self.threshold(number(given)?)?,
        };
        if is_verified { self.wrap(b'v', node) } else { Some(node) }
    }

    fn threshold(&mut self, k: u64) -> Option<usize> {
        let mut children = Vec::new();
        while self.is_next(0x93) {
            children.push(self.side()?);
        }
        children.push(self.single()?);
        let from = self.room.children.len();
        self.room.children.extend(children.iter().rev());
        Some(self.add(Node::Thresh(k, from, self.room.children.len())))
    }

    fn multi(&mut self) -> Option<usize> {
        let count = number(self.push()?).filter(|count| (1..=20).contains(count))?;
        let from = self.room.keys.len();
        for _ in 0..count {
            let key = self.key()?;
            self.room.keys.push(key);
        }
        self.room.keys[from..].reverse();
        let k = number(self.push()?)?;
        Some(self.add(Node::Multi(k, from, self.room.keys.len())))
    }
}

// Types, sanity, limits and the choice, of one node after the other.

const B: u32 = 1;
const V: u32 = 2;
const K: u32 = 4;
const W: u32 = 8;
const BASE: u32 = B | V | K | W;
const Z: u32 = 16;
const O: u32 = 32;
const N: u32 = 64;
const D: u32 = 128;
const U: u32 = 256;
const S: u32 = 512;
const F: u32 = 1024;
const E: u32 = 2048;

/// What a stack weighs, and whether it has no signature.
#[derive(Clone, Copy, Default)]
struct Way {
    weight: i64,
    is_signed: bool,
}

/// The most items of a satisfaction, and the most keys of multisignatures that it executes.
#[derive(Clone, Copy, Default)]
struct Most {
    items: i64,
    keys: i64,
}

#[derive(Clone, Copy, Default)]
struct Facts {
    letters: u32,
    /// Relative times and heights, absolute times and heights, a bit each.
    locks: u32,
    most: (Option<Most>, Option<Most>),
    sat: Option<Way>,
    dsat: Option<Way>,
    is_second: (bool, bool),
}

fn mix(x: u32, y: u32) -> bool {
    let mixed = |x: u32, y: u32| x & 1 != 0 && y & 2 != 0 || x & 4 != 0 && y & 8 != 0;
    mixed(x, y) || mixed(y, x)
}

fn if_all(letters: u32, fits: bool) -> u32 {
    if fits { letters } else { 0 }
}

fn both(x: Option<Way>, y: Option<Way>) -> Option<Way> {
    let (x, y) = (x?, y?);
    Some(Way { weight: x.weight + y.weight, is_signed: x.is_signed || y.is_signed })
}

fn item(length: usize) -> Option<Way> {
    Some(Way { weight: 1 + length as i64, is_signed: false })
}

fn sum(x: Option<Most>, y: Option<Most>) -> Option<Most> {
    let (x, y) = (x?, y?);
    Some(Most { items: x.items + y.items, keys: x.keys + y.keys })
}

fn greater(x: Option<Most>, y: Option<Most>) -> Option<Most> {
    match (x, y) {
        (Some(x), Some(y)) => Some(Most { items: x.items.max(y.items), keys: x.keys.max(y.keys) }),
        _ => x.or(y),
    }
}

fn most(items: i64, keys: i64) -> Option<Most> {
    Some(Most { items, keys })
}

/// The first option, unless the second weighs less; and whether it is the second.
fn lighter(first: Option<Way>, second: Option<Way>) -> (Option<Way>, bool) {
    let is_second = match (first, second) {
        (Some(first), Some(second)) => second.weight < first.weight,
        (first, _) => first.is_none(),
    };
    (if is_second { second } else { first }, is_second)
}

/// An option without a signature before one with any.
fn strict(first: Option<Way>, second: Option<Way>) -> (Option<Way>, bool) {
    let is_free = |way: Option<Way>| way.is_some_and(|way| !way.is_signed);
    if is_free(first) {
        (first, false)
    } else if is_free(second) {
        (second, true)
    } else {
        lighter(first, second)
    }
}

struct Assets<'s, 'r> {
    version: u32,
    sequence: u32,
    locktime: u32,
    pairs: &'r [Pair<'s>],
}

impl<'s> Assets<'s, '_> {
    fn signature(&self, key: &[u8]) -> Option<&'s [u8]> {
        self.pairs.iter().find(|pair| pair.kind == 2 && pair.data == key).map(|pair| pair.value)
    }

    fn preimage(&self, code: u8, value: &[u8]) -> Option<&'s [u8]> {
        let kind = [(0xa6, 0x0a), (0xa8, 0x0b), (0xa9, 0x0c), (0xaa, 0x0d)].iter().find(|pair| pair.0 == code)?.1;
        let preimages = self.pairs.iter().filter(|pair| matches!(pair.kind, 0x0a..=0x0d) && pair.value.len() == 32);
        preimages.filter(|pair| pair.kind == kind && pair.data == value || pair.kind != kind && digest_is(code, pair.value, value)).map(|pair| pair.value).next()
    }

    fn hold_older(&self, n: u64) -> bool {
        let sequence = u64::from(self.sequence);
        self.version >= 2 && sequence & 1 << 31 == 0 && n & 1 << 22 == sequence & 1 << 22 && n & 0xffff <= sequence & 0xffff
    }

    fn hold_after(&self, n: u64) -> bool {
        let locktime = u64::from(self.locktime);
        (n < 500_000_000) == (locktime < 500_000_000) && n <= locktime && self.sequence != u32::MAX
    }
}

fn digest_is(code: u8, message: &[u8], value: &[u8]) -> bool {
    match code {
        0xa6 => ripemd160(message, ripemd_block_by_rounds) == value,
        0xa8 => sha256(message) == value,
        0xa9 => hash160(message) == value,
        _ => hash256(message) == value,
    }
}

/// The facts of a node whose children have theirs. None where a requirement on types, malleability or timelocks is false.
fn facts<'s>(node: Node<'s>, room: &mut Room<'s>, assets: &Assets<'s, '_>) -> Option<Facts> {
    let nothing = Some(Way::default());
    let none = most(0, 0);
    let signature = |key| assets.signature(key).map(|sig: &[u8]| Way { weight: 1 + sig.len() as i64, is_signed: true });
    let found = match node {
        Node::Zero => Facts { letters: B | Z | U | D | S | E, dsat: nothing, most: (None, none), ..Facts::default() },
        Node::One => Facts { letters: B | Z | U | F, sat: nothing, most: (none, None), ..Facts::default() },
        Node::PkK(key) => Facts {
            letters: K | O | N | D | U | S | E,
            sat: signature(key),
            dsat: item(0),
            most: (most(1, 0), most(1, 0)),
            ..Facts::default()
        },
        Node::PkH(key) => Facts {
            letters: K | N | D | U | S | E,
            sat: both(signature(key), item(33)),
            dsat: both(item(0), item(33)),
            most: (most(2, 0), most(2, 0)),
            ..Facts::default()
        },
        Node::Older(n) | Node::After(n) => {
            let is_older = matches!(node, Node::Older(_));
            let holds = if is_older { assets.hold_older(n) } else { assets.hold_after(n) };
            let locks = if is_older { if n & 1 << 22 != 0 { 1 } else { 2 } } else if n >= 500_000_000 { 4 } else { 8 };
            (n >= 1 && n < 1 << 31).then_some(())?;
            Facts { letters: B | Z | F, locks, sat: nothing.filter(|_| holds), most: (none, None), ..Facts::default() }
        }
        Node::Hash(code, value) => Facts {
            letters: B | O | N | D | U,
            sat: assets.preimage(code, value).and_then(|preimage| item(preimage.len())),
            dsat: item(32).filter(|_| !digest_is(code, &[0; 32], value)),
            most: (most(1, 0), most(1, 0)),
            ..Facts::default()
        },
        Node::AndOr(x, y, z) => of_and_or(room.facts[x], room.facts[y], room.facts[z])?,
        Node::Two(kind, x, z) => of_two(kind, room.facts[x], room.facts[z])?,
        Node::Thresh(k, from, to) => of_threshold(k as usize, from, to, room)?,
        Node::Multi(k, from, to) => of_multi(k as usize, from, to, room, assets)?,
        Node::Wrap(letter, x) => wrapped(letter, room.facts[x])?,
    };
    Some(found)
}

fn of_and_or(x: Facts, y: Facts, z: Facts) -> Option<Facts> {
    let (a, b, c) = (x.letters, y.letters, z.letters);
    let fits = a & (B | D | U | E) == B | D | U | E && b & c & (B | V | K) != 0 && (a | b | c) & S != 0 && !mix(x.locks, y.locks);
    let forced = a & S != 0 || b & F != 0;
    let letters = b & c & (B | V | K)
        | a & b & c & Z
        | if_all(O, a & Z != 0 && b & c & O != 0 || a & O != 0 && b & c & Z != 0)
        | c & D
        | b & c & U
        | if_all(S, c & S != 0 && (a | b) & S != 0)
        | if_all(c & (F | E), forced);
    let (sat, is_second) = strict(both(y.sat, x.sat), both(z.sat, x.dsat));
    fits.then_some(Facts {
        letters,
        locks: x.locks | y.locks | z.locks,
        sat,
        dsat: both(z.dsat, x.dsat),
        is_second: (is_second, false),
        most: (greater(sum(y.most.0, x.most.0), sum(z.most.0, x.most.1)), sum(z.most.1, x.most.1)),
    })
}

fn of_two(kind: Two, x: Facts, y: Facts) -> Option<Facts> {
    let (a, b) = (x.letters, y.letters);
    let bdu = B | D | U;
    let fits = match kind {
        Two::AndV => a & V != 0 && b & (B | V | K) != 0,
        Two::AndB => a & B != 0 && b & W != 0,
        Two::OrB => a & (B | D) == B | D && b & (W | D) == W | D && a & b & E != 0,
        Two::OrC => a & bdu == bdu && b & V != 0 && a & E != 0,
        Two::OrD => a & bdu == bdu && b & B != 0 && a & E != 0,
        Two::OrI => a & b & (B | V | K) != 0,
    };
    let is_and = matches!(kind, Two::AndV | Two::AndB);
    let fits = fits && (is_and || (a | b) & S != 0) && !(is_and && mix(x.locks, y.locks));
    let either_o = if_all(O, a & Z != 0 && b & O != 0 || b & Z != 0 && a & O != 0);
    let first_o = if_all(O, a & O != 0 && b & Z != 0);
    let n = if_all(N, a & N != 0 || a & Z != 0 && b & N != 0);
    let both_s = a & b & S;
    let letters = match kind {
        Two::AndV => b & BASE | a & b & Z | either_o | n | b & U | (a | b) & S | if_all(F, a & S != 0 || b & F != 0),
        Two::AndB => {
            let f = a & b & F != 0 || a & (S | F) == S | F || b & (S | F) == S | F;
            B | a & b & (Z | D) | either_o | n | U | (a | b) & S | if_all(F, f) | if_all(a & b & E, both_s != 0)
        }
        Two::OrB => B | a & b & Z | either_o | D | U | both_s | E,
        Two::OrC => V | a & b & Z | first_o | both_s | F,
        Two::OrD => B | a & b & Z | first_o | b & (D | U) | both_s | b & (F | E),
        Two::OrI => {
            let e = a & E != 0 && b & F != 0 || b & E != 0 && a & F != 0;
            a & BASE | if_all(O, a & b & Z != 0) | (a | b) & D | a & b & U | both_s | a & b & F | if_all(E, e)
        }
    };
    let second = both(y.sat, x.dsat);
    let neither = both(y.dsat, x.dsat);
    let ((sat, sat_is_second), (dsat, dsat_is_second)) = match kind {
        Two::AndV => ((both(y.sat, x.sat), false), (None, false)),
        Two::AndB => ((both(y.sat, x.sat), false), (neither, false)),
        Two::OrB => (strict(both(y.dsat, x.sat), second), (neither, false)),
        Two::OrC => (strict(x.sat, second), (None, false)),
        Two::OrD => (strict(x.sat, second), (neither, false)),
        Two::OrI => (strict(both(x.sat, item(1)), both(y.sat, item(0))), lighter(both(x.dsat, item(1)), both(y.dsat, item(0)))),
    };
    let (m, w) = (x.most, y.most);
    let one = most(1, 0);
    let limits = match kind {
        Two::AndV => (sum(w.0, m.0), None),
        Two::AndB => (sum(w.0, m.0), sum(w.1, m.1)),
        Two::OrB => (greater(sum(w.1, m.0), sum(w.0, m.1)), sum(w.1, m.1)),
        Two::OrC => (greater(m.0, sum(w.0, m.1)), None),
        Two::OrD => (greater(m.0, sum(w.0, m.1)), sum(w.1, m.1)),
        Two::OrI => (greater(sum(m.0, one), sum(w.0, one)), greater(sum(m.1, one), sum(w.1, one))),
    };
    fits.then_some(Facts { letters, locks: x.locks | y.locks, most: limits, sat, dsat, is_second: (sat_is_second, dsat_is_second) })
}

fn wrapped(letter: u8, x: Facts) -> Option<Facts> {
    let l = x.letters;
    let kept = l & (S | F | E);
    let (fits, letters) = match letter {
        b'a' => (l & B != 0, W | l & (D | U) | kept),
        b's' => (l & (B | O) == B | O, W | l & (D | U) | kept),
        b'c' => (l & K != 0, B | l & (O | N | D) | U | S | kept),
        b'd' => (l & (V | Z) == V | Z, B | O | N | D | l & S | E),
        b'v' => (l & B != 0, V | l & (Z | O | N) | l & S | F),
        b'j' => (l & (B | N) == B | N, B | l & (O | U) | N | D | l & S | if_all(E, l & F != 0)),
        _ => (l & B != 0, l & (B | Z | O | N | D) | U | kept),
    };
    let (sat, dsat, limits) = match letter {
        b'd' => (both(x.sat, item(1)), item(0), (sum(x.most.0, most(1, 0)), most(1, 0))),
        b'v' => (x.sat, None, (x.most.0, None)),
        b'j' => (x.sat, item(0), (x.most.0, most(1, 0))),
        _ => (x.sat, x.dsat, x.most),
    };
    fits.then_some(Facts { letters, sat, dsat, most: limits, ..x })
}

fn of_threshold(k: usize, from: usize, to: usize, room: &mut Room<'_>) -> Option<Facts> {
    let all: Vec<Facts> = room.children[from..to].iter().map(|x| room.facts[*x]).collect();
    let fits = (1..=all.len()).contains(&k)
        && all[0].letters & (B | D | U) == B | D | U
        && all[1..].iter().all(|x| x.letters & (W | D | U) == W | D | U)
        && all.iter().all(|x| x.letters & E != 0);
    let unsigned = all.iter().filter(|x| x.letters & S == 0).count();
    let mut locks = 0;
    for x in &all {
        if k >= 2 && mix(locks, x.locks) {
            return None;
        }
        locks |= x.locks;
    }
    let others = all.iter().filter(|x| x.letters & Z == 0).count();
    let letters = B
        | D
        | U
        | if_all(Z, others == 0)
        | if_all(O, others == 1 && all.iter().all(|x| x.letters & (Z | O) != 0))
        | if_all(S, unsigned < k)
        | if_all(E, unsigned == 0);
    room.chosen_children.resize(to, false);
    let chosen = &mut room.chosen_children[from..to];
    let mut added = Vec::new();
    let mut left = k as i64;
    for (i, x) in all.iter().enumerate() {
        match (x.sat, x.dsat) {
            (Some(sat), Some(dsat)) if sat.is_signed => added.push((sat.weight - dsat.weight, i)),
            (Some(_), _) => {
                chosen[i] = true;
                left -= 1;
            }
            _ => {}
        }
    }
    added.sort_unstable();
    for (_, i) in added.iter().take(left.max(0) as usize) {
        chosen[*i] = true;
    }
    let is_met = left >= 0 && left <= added.len() as i64;
    let nothing = Some(Way::default());
    let sat = all.iter().zip(&*chosen).fold(nothing.filter(|_| is_met), |sum, (x, chosen)| both(sum, if *chosen { x.sat } else { x.dsat }));
    let dsat = all.iter().fold(nothing, |sum, x| both(sum, x.dsat));
    let most = (most_of_threshold(k, &all), all.iter().fold(most(0, 0), |total, x| sum(total, x.most.1)));
    (fits && unsigned <= k).then_some(Facts { letters, locks, most, sat, dsat, ..Facts::default() })
}

fn most_of_threshold(k: usize, all: &[Facts]) -> Option<Most> {
    let (mut items, mut keys) = (Vec::new(), Vec::new());
    let (mut total, mut left) = (Most::default(), k);
    for x in all {
        let add = match x.most {
            (Some(sat), Some(dsat)) => {
                items.push(sat.items - dsat.items);
                keys.push(sat.keys - dsat.keys);
                dsat
            }
            (Some(sat), None) => {
                left = left.checked_sub(1)?;
                sat
            }
            (None, dsat) => dsat?,
        };
        total = Most { items: total.items + add.items, keys: total.keys + add.keys };
    }
    (left <= items.len()).then_some(())?;
    items.sort_unstable();
    keys.sort_unstable();
    let greatest = |all: &[i64]| all[all.len() - left..].iter().sum::<i64>();
    most(total.items + greatest(&items), total.keys + greatest(&keys))
}

/// The shortest signatures sign.
fn of_multi<'s>(k: usize, from: usize, to: usize, room: &mut Room<'s>, assets: &Assets<'s, '_>) -> Option<Facts> {
    let count = to - from;
    (1..=count).contains(&k).then_some(())?;
    room.chosen_keys.resize(to, false);
    let mut signatures = [(0, 0); 20];
    let mut signed = 0;
    for (i, key) in room.keys[from..to].iter().enumerate() {
        if let Some(sig) = assets.signature(key) {
            signatures[signed] = (sig.len(), i);
            signed += 1;
        }
    }
    let signatures = &mut signatures[..signed];
    signatures.sort_unstable();
    let mut weight = 1;
    for (length, i) in signatures.iter().take(k) {
        room.chosen_keys[from + i] = true;
        weight += 1 + *length as i64;
    }
    let limit = most(k as i64 + 1, count as i64);
    Some(Facts {
        letters: B | N | D | U | S | E,
        sat: (signed >= k).then_some(Way { weight, is_signed: true }),
        dsat: Some(Way { weight: k as i64 + 1, is_signed: false }),
        most: (limit, limit),
        ..Facts::default()
    })
}

// Witnesses.

struct Stack<'s, 'r> {
    room: &'r Room<'s>,
    assets: &'r Assets<'s, 'r>,
    items: Vec<&'s [u8]>,
}

impl<'s> Stack<'s, '_> {
    fn sig(&mut self, key: &[u8], is_sat: bool) {
        self.items.push(self.assets.signature(key).filter(|_| is_sat).unwrap_or_default());
    }

    fn put(&mut self, node: usize, is_sat: bool) {
        let of = self.room.facts[node];
        let is_second = if is_sat { of.is_second.0 } else { of.is_second.1 };
        match self.room.nodes[node] {
            Node::PkK(key) => self.sig(key, is_sat),
            Node::PkH(key) => {
                self.sig(key, is_sat);
                self.items.push(key);
            }
            Node::Hash(code, value) => {
                self.items.push(self.assets.preimage(code, value).filter(|_| is_sat).unwrap_or(&[0; 32]));
            }
            Node::AndOr(x, y, z) => {
                let is_first = is_sat && !is_second;
                self.put(if is_first { y } else { z }, is_sat);
                self.put(x, is_first);
            }
            Node::Two(Two::AndV | Two::AndB, x, z) => {
                self.put(z, is_sat);
                self.put(x, is_sat);
            }
            Node::Two(Two::OrI, x, z) => {
                self.put(if is_second { z } else { x }, is_sat);
                self.items.push(if is_second { &[] } else { &[1] });
            }
            Node::Two(kind, x, z) => {
                if kind == Two::OrB || !is_sat || is_second {
                    self.put(z, is_second);
                }
                self.put(x, is_sat && !is_second);
            }
            Node::Thresh(_, from, to) => {
                for i in (from..to).rev() {
                    self.put(self.room.children[i], is_sat && self.room.chosen_children[i]);
                }
            }
            Node::Multi(k, from, to) => {
                self.items.push(&[]);
                for i in from..to {
                    if is_sat && self.room.chosen_keys[i] {
                        self.sig(self.room.keys[i], true);
                    }
                }
                self.items.extend((0..if is_sat { 0 } else { k }).map(|_| &[] as &[u8]));
            }
            Node::Wrap(b'd' | b'j', _) if !is_sat => self.items.push(&[]),
            Node::Wrap(letter, x) => {
                self.put(x, is_sat);
                if letter == b'd' {
                    self.items.push(&[1]);
                }
            }
            _ => {}
        }
    }
}

fn has_new_keys(room: &Room<'_>) -> bool {
    let mut keys: Vec<&[u8]> = room.keys.clone();
    keys.extend(room.nodes.iter().filter_map(|node| match node {
        Node::PkK(key) | Node::PkH(key) => Some(*key),
        _ => None,
    }));
    keys.sort_unstable();
    keys.windows(2).all(|pair| pair[0] != pair[1])
}

/// How many opcodes above hex 60 a script has.
fn opcodes(script: &[u8]) -> i64 {
    let mut rest = Rest(script);
    let mut count = 0;
    while let Some(&byte) = rest.0.first() {
        let length = 1 + if byte <= 0x4b { byte as usize } else { 0 };
        count += i64::from(byte > 0x60);
        rest.take(length);
    }
    count
}

/// The strict satisfaction of a script by these assets, or none where it isn't that of a sane miniscript or nothing is enough.
fn satisfaction<'s>(script: &'s [u8], room: &mut Room<'s>, assets: &Assets<'s, '_>) -> Option<Vec<&'s [u8]>> {
    (script.len() <= 3_600).then_some(())?;
    room.nodes.clear();
    room.facts.clear();
    room.children.clear();
    room.keys.clear();
    room.chosen_children.clear();
    room.chosen_keys.clear();
    let mut all = std::mem::take(&mut room.items);
    items(script, &mut all)?;
    room.items = all;
    let top = Reader { room, pairs: assets.pairs }.chain()?;
    room.items.is_empty().then_some(())?;
    for i in 0..room.nodes.len() {
        let found = facts(room.nodes[i], room, assets)?;
        room.facts.push(found);
    }
    let of = room.facts[top];
    let limits = of.most.0.unwrap_or_default();
    let is_sane = of.letters & (B | S) == B | S && limits.items <= 100 && opcodes(script) + limits.keys <= 201 && has_new_keys(room);
    (is_sane && of.sat.is_some()).then_some(())?;
    let mut stack = Stack { room, assets, items: Vec::with_capacity(8) };
    stack.put(top, true);
    Some(stack.items)
}

// Inputs.

/// What is spent: its program, the final scriptSig's push of it where it is P2SH, and the witness script where the program is of one.
struct Output<'a> {
    program: &'a [u8],
    is_nested: bool,
    script: Option<&'a [u8]>,
}

/// None where it is none of the four kinds that are known.
fn kind_of<'a>(spent: &'a [u8], redeem: Option<&'a [u8]>, script: Option<&'a [u8]>) -> Option<Output<'a>> {
    let spent = Rest(&spent[8..]).text()?;
    let is_nested = spent.len() == 23 && spent[..2] == [0xa9, 20] && spent[22] == 0x87;
    let program = if is_nested { redeem.filter(|redeem| hash160(redeem) == spent[2..22])? } else { spent };
    let script = match program {
        [0, 32, hash @ ..] if hash.len() == 32 => Some(script.filter(|script| sha256(script) == *hash)?),
        [0, 20, hash @ ..] if hash.len() == 20 => None,
        _ => return None,
    };
    Some(Output { program, is_nested, script })
}

/// The signature of the key of P2WPKH, and the key.
fn key_witness<'s>(program: &[u8], pairs: &[Pair<'s>]) -> Option<Vec<&'s [u8]>> {
    let of_key = |pair: &&Pair<'s>| pair.data.len() == 33 && hash160(pair.data) == program[2..];
    let signed = pairs.iter().filter(|pair| pair.kind == 2).find(of_key)?;
    Some(vec![signed.value, signed.data])
}

/// The map of an input, or the final one where it is Ready. None where it is refused; Some(false) where it stays open.
fn put_input<'s>(
    out: &mut Vec<u8>,
    transaction: &Transaction<'s>,
    spend: &Spend<'s>,
    map: &[u8],
    pairs: &[Pair<'s>],
    room: &mut Room<'s>,
) -> Option<bool> {
    let mut utxo = None;
    let (mut earlier, mut redeem, mut script, mut is_final, mut asked) = (None, None, None, false, 1);
    for pair in pairs {
        match pair.kind {
            0 => earlier = Some(previous(pair.value, spend.index as usize)?),
            1 => utxo = Some(pair.value),
            3 => asked = four_bytes(pair.value)?,
            4 => redeem = Some(pair.value),
            5 => script = Some(pair.value),
            7 => is_final |= !pair.value.is_empty(),
            8 => is_final |= pair.value != [0],
            _ => {}
        }
    }
    let spent = match earlier {
        Some((id, spent)) => spent.filter(|spent| id == spend.id && utxo.is_none_or(|utxo| utxo == *spent)),
        None => utxo,
    };
    if is_final {
        out.extend_from_slice(map);
        return Some(true);
    }
    let assets = Assets { version: transaction.version, sequence: spend.sequence, locktime: transaction.locktime, pairs };
    let found = spent.and_then(|spent| kind_of(spent, redeem, script)).and_then(|output| {
        let mut signatures = pairs.iter().filter(|pair| pair.kind == 2 && pair.data.len() == 33);
        let is_of_type = signatures.clone().next().is_none() || matches!(asked & !0x80, 1..=3) && asked <= 0x83;
        let of_type = is_of_type && signatures.all(|pair| pair.value.last().is_some_and(|last| u32::from(*last) == asked));
        of_type.then_some(())?;
        let stack = match output.script {
            Some(script) => satisfaction(script, room, &assets)?,
            None => key_witness(output.program, pairs)?,
        };
        Some((output, stack))
    });
    let Some((output, mut stack)) = found else {
        out.extend_from_slice(map);
        return Some(false);
    };
    for pair in pairs.iter().filter(|pair| !matches!(pair.kind, 2..=8 | 0x0a..=0x0d)) {
        out.extend_from_slice(pair.whole);
    }
    if output.is_nested {
        out.extend_from_slice(&[1, 7, output.program.len() as u8 + 1, output.program.len() as u8]);
        out.extend_from_slice(output.program);
    }
    stack.extend(output.script);
    put_witness(out, &stack);
    out.push(0);
    Some(true)
}

/// The pair of a final witness.
fn put_witness(out: &mut Vec<u8>, items: &[&[u8]]) {
    let sized = |length: usize| length + if length < 0xfd { 1 } else { 3 };
    out.extend_from_slice(&[1, 8]);
    put_size(out, 1 + items.iter().map(|item| sized(item.len())).sum::<usize>());
    put_size(out, items.len());
    for item in items {
        put_size(out, item.len());
        out.extend_from_slice(item);
    }
}

/// What the global map says: the transaction, or in version 2 all of it but for its inputs and its lock time, and the number of inputs.
enum Global<'a> {
    Earlier(Transaction<'a>),
    Later { version: u32, fallback: u32, inputs: usize, outputs: usize },
}

fn global<'a>(pairs: &[Pair<'a>]) -> Option<Global<'a>> {
    let of = |kind: usize| pairs.iter().find(|pair| pair.kind == kind && pair.data.is_empty()).map(|pair| pair.value);
    let count = |kind| {
        let mut rest = Rest(of(kind)?);
        rest.size().filter(|_| rest.is_empty())
    };
    let is_listed = |pair: &Pair<'_>| matches!(pair.kind, 0 | 2..=6 | 0xfb);
    pairs.iter().filter(|pair| is_listed(pair)).all(|pair| pair.data.is_empty()).then_some(())?;
    match of(0xfb).map_or(Some(0), four_bytes)? {
        0 if !pairs.iter().any(|pair| matches!(pair.kind, 2..=6)) => Some(Global::Earlier(unsigned(of(0)?)?)),
        2 if of(0).is_none() && of(6).is_none_or(|flags| flags.len() == 1) => Some(Global::Later {
            version: four_bytes(of(2)?)?,
            fallback: of(3).map_or(Some(0), four_bytes)?,
            inputs: count(4)?,
            outputs: count(5)?,
        }),
        _ => None,
    }
}

/// The PSBT with its inputs finalised, and whether all are final. None where it is refused.
fn finalize(source: &[u8]) -> Option<(Vec<u8>, bool)> {
    let mut rest = Rest(source.strip_prefix(b"psbt\xff").filter(|_| source.len() <= 16_777_216)?);
    let (mut pairs, mut keys) = (Vec::new(), Vec::new());
    map(&mut rest, &mut pairs, &mut keys)?;
    let global = global(&pairs)?;
    let mut out = Vec::with_capacity(source.len());
    out.extend_from_slice(&source[..source.len() - rest.0.len()]);
    let mut is_final = true;
    let mut room = Room::default();
    let (version, outputs) = match global {
        Global::Earlier(transaction) => {
            for spend in &transaction.spends {
                let bytes = map(&mut rest, &mut pairs, &mut keys)?;
                pairs.iter().all(|pair| !matches!(pair.kind, 0x0e..=0x12) && has_form(pair)).then_some(())?;
                is_final &= put_input(&mut out, &transaction, spend, bytes, &pairs, &mut room)?;
            }
            (0, transaction.outputs)
        }
        Global::Later { version, fallback, inputs, outputs } => {
            // The lock time is known behind the last input: all pairs of inputs lie in one list.
            let (mut all, mut maps, mut spends, mut locks) = (Vec::new(), Vec::new(), Vec::new(), Locks::default());
            for _ in 0..inputs {
                let bytes = map(&mut rest, &mut pairs, &mut keys)?;
                pairs.iter().all(has_form).then_some(())?;
                spends.push(spend_of(&pairs, &mut locks)?);
                all.extend_from_slice(&pairs);
                maps.push((bytes, all.len()));
            }
            are_new(&spends).then_some(())?;
            let transaction = Transaction { version, spends, outputs, locktime: locks.locktime(fallback) };
            let mut from = 0;
            for (spend, (bytes, to)) in transaction.spends.iter().zip(maps) {
                is_final &= put_input(&mut out, &transaction, spend, bytes, &all[from..to], &mut room)?;
                from = to;
            }
            (2, outputs)
        }
    };
    out.extend_from_slice(rest.0);
    for _ in 0..outputs {
        map(&mut rest, &mut pairs, &mut keys)?;
        is_of_output(&pairs, version).then_some(())?;
    }
    rest.is_empty().then_some((out, is_final))
}

fn main() {
    let mut source = Vec::new();
    stdin().read_to_end(&mut source).expect("a PSBT");
    match finalize(&source) {
        Some((out, is_final)) => {
            stdout().write_all(&out).expect("room for the PSBT");
            exit(if is_final { 0 } else { 4 });
        }
        None => {
            println!("refused");
            exit(3);
        }
    }
}
