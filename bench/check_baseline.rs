//! What `msat check TEXT` does, by plain Rust over trees in one room, to be measured beside the proved program. Refusals aren't told apart, and
//! the type has none of the letters of malleability.
//! Usage: check_baseline TEXT. The exit status is 0, or 2 where `refused` is printed.

#[allow(dead_code)]
#[path = "hash_baseline.rs"]
mod hash_baseline;

use hash_baseline::{ripemd160, ripemd_block_by_rounds, sha256};
use std::cell::Cell;
use std::mem::MaybeUninit;
use std::ops::{Add, Sub};
use std::process::exit;

pub type Key = [u8; 33];

#[derive(Clone, Copy)]
pub enum HashKind {
    Sha256,
    Hash256,
    Ripemd160,
    Hash160,
}

#[derive(Clone, Copy)]
pub enum Two {
    AndV,
    AndB,
    OrB,
    OrC,
    OrD,
    OrI,
}

pub enum Tree {
    Zero,
    One,
    PkK(Key),
    PkH(Key),
    Older(u64),
    After(u64),
    Hash(HashKind, Vec<u8>),
    AndOr(Node, Node, Node),
    Two(Two, Node, Node),
    Thresh(u64, Vec<Tree>),
    Multi(u64, Vec<Key>),
    Wrap(u8, Node),
}

/// A tree in the room that is never given back, since the program ends with its answer.
pub type Node = &'static Tree;

/// Puts a tree into the room, which grows by blocks.
pub fn node(tree: Tree) -> Node {
    thread_local! {
        static ROOM: Cell<&'static mut [MaybeUninit<Tree>]> = const { Cell::new(&mut []) };
    }
    let mut room = ROOM.take();
    if room.is_empty() {
        room = Box::leak(Box::<[Tree]>::new_uninit_slice(256));
    }
    let (place, rest) = room.split_first_mut().expect("a block");
    ROOM.set(rest);
    place.write(tree)
}

// Reading.

struct Reader<'t> {
    text: &'t [u8],
    at: usize,
}

impl<'t> Reader<'t> {
    fn word(&mut self) -> &'t [u8] {
        let rest = &self.text[self.at..];
        let length = rest.iter().position(|b| !b.is_ascii_alphanumeric() && *b != b'_').unwrap_or(rest.len());
        self.at += length;
        &rest[..length]
    }

    fn is_next(&mut self, byte: u8) -> bool {
        let is_there = self.text.get(self.at) == Some(&byte);
        self.at += is_there as usize;
        is_there
    }

    fn expect(&mut self, byte: u8) -> Option<()> {
        self.is_next(byte).then_some(())
    }

    /// An expression under `above` names and letters.
    fn expression(&mut self, above: usize) -> Option<Tree> {
        let mut letters = Vec::new();
        let mut word = self.word();
        while self.is_next(b':') {
            if word.is_empty() {
                return None;
            }
            letters.extend_from_slice(word);
            word = self.word();
        }
        let depth = above + letters.len() + 1;
        if depth > 256 {
            return None;
        }
        let mut tree = self.fragment(word, depth)?;
        for letter in letters.iter().rev() {
            tree = wrapped(*letter, tree)?;
        }
        Some(tree)
    }

    fn fragment(&mut self, name: &[u8], depth: usize) -> Option<Tree> {
        match name {
            b"0" => return Some(Tree::Zero),
            b"1" => return Some(Tree::One),
            _ => self.expect(b'(')?,
        }
        let tree = match name {
            b"pk_k" => Tree::PkK(self.key()?),
            b"pk_h" => Tree::PkH(self.key()?),
            b"pk" => Tree::Wrap(b'c', node(Tree::PkK(self.key()?))),
            b"pkh" => Tree::Wrap(b'c', node(Tree::PkH(self.key()?))),
            b"older" => Tree::Older(self.number()?),
            b"after" => Tree::After(self.number()?),
            b"sha256" => self.hash(HashKind::Sha256, 32)?,
            b"hash256" => self.hash(HashKind::Hash256, 32)?,
            b"ripemd160" => self.hash(HashKind::Ripemd160, 20)?,
            b"hash160" => self.hash(HashKind::Hash160, 20)?,
            b"and_v" => self.two(Two::AndV, depth)?,
            b"and_b" => self.two(Two::AndB, depth)?,
            b"or_b" => self.two(Two::OrB, depth)?,
            b"or_c" => self.two(Two::OrC, depth)?,
            b"or_d" => self.two(Two::OrD, depth)?,
            b"or_i" => self.two(Two::OrI, depth)?,
            b"and_n" => {
                let (x, y) = self.pair(depth)?;
                Tree::AndOr(x, y, node(Tree::Zero))
            }
            b"andor" => {
                let (x, y) = self.pair(depth)?;
                self.expect(b',')?;
                Tree::AndOr(x, y, node(self.expression(depth)?))
            }
            b"thresh" => Tree::Thresh(self.number()?, self.list(|reader| reader.expression(depth))?),
            b"multi" => Tree::Multi(self.number()?, self.list(|reader| reader.key())?),
            _ => return None,
        };
        self.expect(b')')?;
        Some(tree)
    }

    fn pair(&mut self, depth: usize) -> Option<(Node, Node)> {
        let x = self.expression(depth)?;
        self.expect(b',')?;
        Some((node(x), node(self.expression(depth)?)))
    }

    fn two(&mut self, kind: Two, depth: usize) -> Option<Tree> {
        let (x, z) = self.pair(depth)?;
        Some(Tree::Two(kind, x, z))
    }

    fn list<T>(&mut self, read: impl Fn(&mut Self) -> Option<T>) -> Option<Vec<T>> {
        let mut all = Vec::new();
        while self.is_next(b',') {
            all.push(read(self)?);
        }
        (!all.is_empty()).then_some(all)
    }

    fn number(&mut self) -> Option<u64> {
        let word = self.word();
        if word.len() > 10 || !word.iter().all(u8::is_ascii_digit) || word.len() > 1 && word[0] == b'0' {
            return None;
        }
        std::str::from_utf8(word).ok()?.parse().ok()
    }

    fn key(&mut self) -> Option<Key> {
        let key: Key = decoded_array(self.word())?;
        (key[0] == 2 || key[0] == 3).then_some(key)
    }

    fn hash(&mut self, kind: HashKind, length: usize) -> Option<Tree> {
        let value = decoded(self.word())?;
        (value.len() == length).then_some(Tree::Hash(kind, value))
    }
}

fn wrapped(letter: u8, x: Tree) -> Option<Tree> {
    let x = node(x);
    Some(match letter {
        b'a' | b's' | b'c' | b'd' | b'v' | b'j' | b'n' => Tree::Wrap(letter, x),
        b't' => Tree::Two(Two::AndV, x, node(Tree::One)),
        b'l' => Tree::Two(Two::OrI, node(Tree::Zero), x),
        b'u' => Tree::Two(Two::OrI, x, node(Tree::Zero)),
        _ => return None,
    })
}

/// What each digit is worth, and 255 for what is no digit.
const DIGITS: [u8; 256] = {
    let mut values = [255; 256];
    let mut i = 0;
    while i < 16 {
        values[b"0123456789abcdef"[i] as usize] = i as u8;
        values[b"0123456789ABCDEF"[i] as usize] = i as u8;
        i += 1;
    }
    values
};

fn byte(&[high, low]: &[u8; 2]) -> Option<u8> {
    let (high, low) = (DIGITS[high as usize], DIGITS[low as usize]);
    (high | low < 16).then_some(high << 4 | low)
}

pub fn decoded(digits: &[u8]) -> Option<Vec<u8>> {
    let (pairs, rest) = digits.as_chunks::<2>();
    rest.is_empty().then_some(())?;
    let mut bytes = Vec::with_capacity(pairs.len());
    for pair in pairs {
        bytes.push(byte(pair)?);
    }
    Some(bytes)
}

pub fn decoded_array<const N: usize>(digits: &[u8]) -> Option<[u8; N]> {
    let (pairs, rest) = digits.as_chunks::<2>();
    (rest.is_empty() && pairs.len() == N).then_some(())?;
    let mut bytes = [0; N];
    for (place, pair) in bytes.iter_mut().zip(pairs) {
        *place = byte(pair)?;
    }
    Some(bytes)
}

// Printing.

pub fn put_digits(out: &mut String, bytes: &[u8]) {
    const DIGITS: &[u8; 16] = b"0123456789abcdef";
    out.reserve(2 * bytes.len());
    out.extend(bytes.iter().flat_map(|byte| [DIGITS[(byte >> 4) as usize] as char, DIGITS[(byte & 15) as usize] as char]));
}

pub fn put_of(out: &mut String, name: &str, bytes: &[u8]) {
    out.push_str(name);
    out.push('(');
    put_digits(out, bytes);
    out.push(')');
}

pub fn put_tree(out: &mut String, tree: &Tree) {
    match tree {
        Tree::Zero => out.push('0'),
        Tree::One => out.push('1'),
        Tree::PkK(key) => put_of(out, "pk_k", key),
        Tree::PkH(key) => put_of(out, "pk_h", key),
        Tree::Older(n) => out.push_str(&format!("older({n})")),
        Tree::After(n) => out.push_str(&format!("after({n})")),
        Tree::Hash(HashKind::Sha256, value) => put_of(out, "sha256", value),
        Tree::Hash(HashKind::Hash256, value) => put_of(out, "hash256", value),
        Tree::Hash(HashKind::Ripemd160, value) => put_of(out, "ripemd160", value),
        Tree::Hash(HashKind::Hash160, value) => put_of(out, "hash160", value),
        Tree::AndOr(x, y, z) => put_all(out, "andor(", &[x, y, z]),
        Tree::Two(Two::AndV, x, z) => put_all(out, "and_v(", &[x, z]),
        Tree::Two(Two::AndB, x, z) => put_all(out, "and_b(", &[x, z]),
        Tree::Two(Two::OrB, x, z) => put_all(out, "or_b(", &[x, z]),
        Tree::Two(Two::OrC, x, z) => put_all(out, "or_c(", &[x, z]),
        Tree::Two(Two::OrD, x, z) => put_all(out, "or_d(", &[x, z]),
        Tree::Two(Two::OrI, x, z) => put_all(out, "or_i(", &[x, z]),
        Tree::Thresh(k, children) => put_all(out, &format!("thresh({k},"), &children.iter().collect::<Vec<_>>()),
        Tree::Multi(k, keys) => {
            out.push_str(&format!("multi({k}"));
            for key in keys {
                out.push(',');
                put_digits(out, key);
            }
            out.push(')');
        }
        Tree::Wrap(letter, x) => {
            out.push((*letter).into());
            if !matches!(**x, Tree::Wrap(..)) {
                out.push(':');
            }
            put_tree(out, x);
        }
    }
}

fn put_all(out: &mut String, name: &str, children: &[&Tree]) {
    out.push_str(name);
    for (i, child) in children.iter().enumerate() {
        if i > 0 {
            out.push(',');
        }
        put_tree(out, child);
    }
    out.push(')');
}

// Types.

#[derive(Clone, Copy, PartialEq, Debug)]
enum Base {
    B,
    V,
    K,
    W,
}

#[derive(Clone, Copy)]
struct Type {
    base: Base,
    z: bool,
    o: bool,
    n: bool,
    d: bool,
    u: bool,
}

impl Type {
    fn of(base: Base, letters: &str) -> Type {
        let has = |letter| letters.contains(letter);
        Type { base, z: has('z'), o: has('o'), n: has('n'), d: has('d'), u: has('u') }
    }

    fn is_bdu(&self) -> bool {
        self.base == Base::B && self.d && self.u
    }

    fn is_wdu(&self) -> bool {
        self.base == Base::W && self.d && self.u
    }

    fn letters(&self) -> String {
        let letters = [('z', self.z), ('o', self.o), ('n', self.n), ('d', self.d), ('u', self.u)];
        let held: String = letters.iter().filter(|(_, holds)| *holds).map(|(letter, _)| letter).collect();
        format!("{:?}{held}", self.base)
    }
}

/// None where a requirement is false, here and in the next two.
fn type_of(tree: &Tree) -> Option<Type> {
    match tree {
        Tree::Zero => Some(Type::of(Base::B, "zud")),
        Tree::One => Some(Type::of(Base::B, "zu")),
        Tree::PkK(_) => Some(Type::of(Base::K, "ondu")),
        Tree::PkH(_) => Some(Type::of(Base::K, "ndu")),
        Tree::Older(n) | Tree::After(n) => (*n >= 1 && *n < 1 << 31).then(|| Type::of(Base::B, "z")),
        Tree::Hash(..) => Some(Type::of(Base::B, "ondu")),
        Tree::AndOr(x, y, z) => {
            let (x, y, z) = (type_of(x)?, type_of(y)?, type_of(z)?);
            let fits = x.is_bdu() && y.base == z.base && y.base != Base::W;
            let o = x.z && y.o && z.o || x.o && y.z && z.z;
            let base = y.base;
            fits.then_some(Type { base, z: x.z && y.z && z.z, o, n: false, d: z.d, u: y.u && z.u })
        }
        Tree::Two(kind, x, z) => type_of_two(*kind, type_of(x)?, type_of(z)?),
        Tree::Thresh(k, children) => {
            let types = children.iter().map(type_of).collect::<Option<Vec<_>>>()?;
            let fits = *k >= 1 && *k <= types.len() as u64 && types[0].is_bdu() && types[1..].iter().all(Type::is_wdu);
            let z = types.iter().all(|t| t.z);
            let o = types.iter().filter(|t| !t.z).count() == 1 && types.iter().all(|t| t.z || t.o);
            fits.then_some(Type { base: Base::B, z, o, n: false, d: true, u: true })
        }
        Tree::Multi(k, keys) => (*k >= 1 && *k <= keys.len() as u64 && keys.len() <= 20).then(|| Type::of(Base::B, "ndu")),
        Tree::Wrap(letter, x) => type_of_wrapped(*letter, type_of(x)?),
    }
}

fn type_of_two(kind: Two, x: Type, y: Type) -> Option<Type> {
    let fits = match kind {
        Two::AndV => x.base == Base::V && y.base != Base::W,
        Two::AndB => x.base == Base::B && y.base == Base::W,
        Two::OrB => x.base == Base::B && x.d && y.base == Base::W && y.d,
        Two::OrC => x.is_bdu() && y.base == Base::V,
        Two::OrD => x.is_bdu() && y.base == Base::B,
        Two::OrI => x.base == y.base && x.base != Base::W,
    };
    let z = x.z && y.z;
    let either_o = x.z && y.o || y.z && x.o;
    let n = x.n || x.z && y.n;
    fits.then(|| match kind {
        Two::AndV => Type { base: y.base, z, o: either_o, n, d: false, u: y.u },
        Two::AndB => Type { base: Base::B, z, o: either_o, n, d: x.d && y.d, u: true },
        Two::OrB => Type { base: Base::B, z, o: either_o, n: false, d: true, u: true },
        Two::OrC => Type { base: Base::V, z, o: x.o && y.z, n: false, d: false, u: false },
        Two::OrD => Type { base: Base::B, z, o: x.o && y.z, n: false, d: y.d, u: y.u },
        Two::OrI => Type { base: x.base, z: false, o: z, n: false, d: x.d || y.d, u: x.u && y.u },
    })
}

fn type_of_wrapped(letter: u8, x: Type) -> Option<Type> {
    let (fits, to) = match letter {
        b'a' => (x.base == Base::B, Type { base: Base::W, z: false, o: false, n: false, ..x }),
        b's' => (x.base == Base::B && x.o, Type { base: Base::W, z: false, o: false, n: false, ..x }),
        b'c' => (x.base == Base::K, Type { base: Base::B, z: false, u: true, ..x }),
        b'd' => (x.base == Base::V && x.z, Type::of(Base::B, "ond")),
        b'v' => (x.base == Base::B, Type { base: Base::V, d: false, u: false, ..x }),
        b'j' => (x.base == Base::B && x.n, Type { z: false, n: true, d: true, ..x }),
        _ => (x.base == Base::B, Type { u: true, ..x }),
    };
    fits.then_some(to)
}

// Translation.

#[derive(Default)]
struct Script {
    bytes: Vec<u8>,
    opcodes: u64,
}

impl Script {
    fn code(&mut self, opcode: u8) {
        self.bytes.push(opcode);
        self.opcodes += 1;
    }

    fn push(&mut self, item: &[u8]) {
        self.bytes.push(item.len() as u8);
        self.bytes.extend_from_slice(item);
    }

    fn number(&mut self, n: u64) {
        if n == 0 || n > 16 {
            let length = (64 - n.leading_zeros()).div_ceil(8);
            let needs_sign = n != 0 && n >> (8 * length - 1) != 0;
            self.push(&n.to_le_bytes()[..length as usize + needs_sign as usize]);
        } else {
            self.bytes.push(0x50 + n as u8);
        }
    }

    /// Each tree of type B ends in an opcode or a number, so the last byte is its last instruction.
    fn verify(&mut self) {
        match self.bytes.last_mut() {
            Some(last @ (0x87 | 0xac | 0xae)) => *last += 1,
            _ => self.code(0x69),
        }
    }

    fn tree(&mut self, tree: &Tree) {
        match tree {
            Tree::Zero => self.number(0),
            Tree::One => self.number(1),
            Tree::PkK(key) => self.push(key),
            Tree::PkH(key) => {
                self.code(0x76);
                self.code(0xa9);
                self.push(&ripemd160(&sha256(key), ripemd_block_by_rounds));
                self.code(0x88);
            }
            Tree::Older(n) => {
                self.number(*n);
                self.code(0xb2);
            }
            Tree::After(n) => {
                self.number(*n);
                self.code(0xb1);
            }
            Tree::Hash(kind, value) => {
                self.code(0x82);
                self.number(32);
                self.code(0x88);
                self.code(match kind {
                    HashKind::Ripemd160 => 0xa6,
                    HashKind::Sha256 => 0xa8,
                    HashKind::Hash160 => 0xa9,
                    HashKind::Hash256 => 0xaa,
                });
                self.push(value);
                self.code(0x87);
            }
            Tree::AndOr(x, y, z) => {
                self.tree(x);
                self.between(&[0x64], z, &[0x67]);
                self.between(&[], y, &[0x68]);
            }
            Tree::Two(Two::OrI, x, z) => {
                self.between(&[0x63], x, &[0x67]);
                self.between(&[], z, &[0x68]);
            }
            Tree::Two(kind, x, z) => {
                self.tree(x);
                match kind {
                    Two::AndB => self.between(&[], z, &[0x9a]),
                    Two::OrB => self.between(&[], z, &[0x9b]),
                    Two::OrC => self.between(&[0x64], z, &[0x68]),
                    Two::OrD => self.between(&[0x73, 0x64], z, &[0x68]),
                    _ => self.tree(z),
                }
            }
            Tree::Thresh(k, children) => {
                self.tree(&children[0]);
                for child in &children[1..] {
                    self.between(&[], child, &[0x93]);
                }
                self.number(*k);
                self.code(0x87);
            }
            Tree::Multi(k, keys) => {
                self.number(*k);
                for key in keys {
                    self.push(key);
                }
                self.number(keys.len() as u64);
                self.code(0xae);
            }
            Tree::Wrap(b'v', x) => {
                self.tree(x);
                self.verify();
            }
            Tree::Wrap(letter, x) => match letter {
                b'a' => self.between(&[0x6b], x, &[0x6c]),
                b's' => self.between(&[0x7c], x, &[]),
                b'c' => self.between(&[], x, &[0xac]),
                b'd' => self.between(&[0x76, 0x63], x, &[0x68]),
                b'j' => self.between(&[0x82, 0x92, 0x63], x, &[0x68]),
                _ => self.between(&[], x, &[0x92]),
            },
        }
    }

    fn between(&mut self, before: &[u8], x: &Tree, after: &[u8]) {
        for opcode in before {
            self.code(*opcode);
        }
        self.tree(x);
        for opcode in after {
            self.code(*opcode);
        }
    }
}

// Limits.

/// The greatest numbers over all formal satisfactions or dissatisfactions, each by itself.
#[derive(Clone, Copy, Default)]
struct Most {
    items: i64,
    weight: i64,
    keys: i64,
}

impl Add for Most {
    type Output = Most;

    fn add(self, other: Most) -> Most {
        Most { items: self.items + other.items, weight: self.weight + other.weight, keys: self.keys + other.keys }
    }
}

impl Sub for Most {
    type Output = Most;

    fn sub(self, other: Most) -> Most {
        Most { items: self.items - other.items, weight: self.weight - other.weight, keys: self.keys - other.keys }
    }
}

fn both(x: Option<Most>, y: Option<Most>) -> Option<Most> {
    Some(x? + y?)
}

fn either(x: Option<Most>, y: Option<Most>) -> Option<Most> {
    match (x, y) {
        (Some(x), Some(y)) => {
            Some(Most { items: x.items.max(y.items), weight: x.weight.max(y.weight), keys: x.keys.max(y.keys) })
        }
        _ => x.or(y),
    }
}

fn item(length: i64) -> Option<Most> {
    Some(Most { items: 1, weight: length + 1, keys: 0 })
}

/// A satisfaction and a dissatisfaction, where there are any.
struct Costs {
    sat: Option<Most>,
    dsat: Option<Most>,
}

fn costs(tree: &Tree) -> Costs {
    let nothing = Some(Most::default());
    let (sat, dsat) = match tree {
        Tree::Zero => (None, nothing),
        Tree::One | Tree::Older(_) | Tree::After(_) => (nothing, None),
        Tree::PkK(_) => (item(73), item(0)),
        Tree::PkH(_) => (both(item(73), item(33)), both(item(0), item(33))),
        Tree::Hash(..) => (item(32), item(32)),
        Tree::AndOr(x, y, z) => {
            let (x, y, z) = (costs(x), costs(y), costs(z));
            (either(both(y.sat, x.sat), both(z.sat, x.dsat)), both(z.dsat, x.dsat))
        }
        Tree::Two(kind, x, z) => {
            let (x, z) = (costs(x), costs(z));
            let (all, none) = (both(z.sat, x.sat), both(z.dsat, x.dsat));
            match kind {
                Two::AndV => (all, None),
                Two::AndB => (all, none),
                Two::OrB => (either(both(z.dsat, x.sat), both(z.sat, x.dsat)), none),
                Two::OrC => (either(x.sat, both(z.sat, x.dsat)), None),
                Two::OrD => (either(x.sat, both(z.sat, x.dsat)), none),
                Two::OrI => {
                    (either(both(x.sat, item(1)), both(z.sat, item(0))), either(both(x.dsat, item(1)), both(z.dsat, item(0))))
                }
            }
        }
        Tree::Thresh(k, children) => {
            let all: Vec<Costs> = children.iter().map(costs).collect();
            (threshold(*k as usize, &all), all.iter().fold(nothing, |sum, x| both(sum, x.dsat)))
        }
        Tree::Multi(k, keys) => {
            let (k, keys) = (*k as i64, keys.len() as i64);
            (Some(Most { items: k + 1, weight: 74 * k + 1, keys }), Some(Most { items: k + 1, weight: k + 1, keys }))
        }
        Tree::Wrap(letter, x) => {
            let x = costs(x);
            match letter {
                b'd' => (both(x.sat, item(1)), item(0)),
                b'j' => (x.sat, item(0)),
                b'v' => (x.sat, None),
                _ => (x.sat, x.dsat),
            }
        }
    };
    Costs { sat, dsat }
}

/// Exactly k of the children are satisfied: those that must be, and those whose satisfaction adds most.
fn threshold(k: usize, children: &[Costs]) -> Option<Most> {
    let mut sum = Most::default();
    let mut left = k;
    let mut added = Vec::new();
    for child in children {
        match (child.sat, child.dsat) {
            (Some(sat), Some(dsat)) => {
                sum = sum + dsat;
                added.push(sat - dsat);
            }
            (Some(sat), None) => {
                sum = sum + sat;
                left = left.checked_sub(1)?;
            }
            (None, dsat) => sum = sum + dsat?,
        }
    }
    if left > added.len() {
        return None;
    }
    let greatest = |number: fn(&Most) -> i64| {
        let mut all: Vec<i64> = added.iter().map(number).collect();
        all.sort_by(|x, y| y.cmp(x));
        all[..left].iter().sum()
    };
    Some(sum + Most { items: greatest(|x| x.items), weight: greatest(|x| x.weight), keys: greatest(|x| x.keys) })
}

/// A valid tree, its type, its Script, its limits and, where it is told, its height.
pub struct Valid {
    pub tree: Tree,
    pub script: Vec<u8>,
    pub height: Option<u64>,
    kind: Type,
    ops: u64,
    most: Most,
}

/// By the limits of policy. None where the text is refused.
pub fn valid(text: &str) -> Option<Valid> {
    valid_by_consensus(text).filter(Valid::is_relayed)
}

/// By the limits of consensus. None where the text is refused.
pub fn valid_by_consensus(text: &str) -> Option<Valid> {
    if text.len() > 65_536 {
        return None;
    }
    let mut reader = Reader { text: text.as_bytes(), at: 0 };
    let tree = reader.expression(0)?;
    (reader.at == text.len()).then(|| valid_tree_by_consensus(tree))?
}

/// By the limits of policy. None where the tree isn't valid.
pub fn valid_tree(tree: Tree) -> Option<Valid> {
    valid_tree_by_consensus(tree).filter(Valid::is_relayed)
}

fn valid_tree_by_consensus(tree: Tree) -> Option<Valid> {
    let kind = type_of(&tree)?;
    if kind.base != Base::B {
        return None;
    }
    let mut script = Script::default();
    script.tree(&tree);
    let most = costs(&tree).sat.unwrap_or_default();
    let ops = script.opcodes + most.keys as u64;
    let script = script.bytes;
    (script.len() <= 10_000 && ops <= 201).then_some(Valid { tree, script, height: None, kind, ops, most })
}

impl Valid {
    fn is_relayed(&self) -> bool {
        self.script.len() <= 3_600 && self.most.items <= 100
    }

    /// What `check` prints, with these letters behind those of the type.
    pub fn report(&self, letters: &str) -> String {
        let mut out = String::from("text ");
        put_tree(&mut out, &self.tree);
        out.push_str(&format!("\ntype {}{letters}\n", self.kind.letters()));
        self.put_script(&mut out);
        out
    }

    /// The lines on the Script, its program and the limits.
    pub fn put_script(&self, out: &mut String) {
        out.push_str("script ");
        put_digits(out, &self.script);
        out.push_str("\nprogram 0020");
        put_digits(out, &sha256(&self.script));
        let (size, ops, most) = (self.script.len(), self.ops, self.most);
        out.push_str(&format!("\nlimits size {size} ops {ops} items {} weight {}", most.items, most.weight));
        if let Some(height) = self.height {
            out.push_str(&format!(" height {height}"));
        }
        out.push('\n');
    }
}


fn main() {
    let text = std::env::args().nth(1).expect("a text");
    match valid(&text) {
        Some(valid) => print!("{}", valid.report("")),
        None => {
            println!("refused");
            exit(2);
        }
    }
}
