//! What `msat decode HEX KEY..` does, by plain Rust over trees in one room, to be measured beside the proved program. It reads the Script by
//! recursion, from its last instruction to its first.
//! Usage: decode_baseline HEX KEY... The exit status is 0, or 10 where `no reading` is printed.

#[allow(dead_code)]
#[path = "check_baseline.rs"]
pub mod check_baseline;
#[allow(dead_code)]
#[path = "hash_baseline.rs"]
mod hash_baseline;

use check_baseline::{HashKind, Key, Tree, Two, decoded, node, put_tree, valid_tree};
use hash_baseline::{ripemd160, ripemd_block_by_rounds, sha256};
use std::collections::HashMap;
use std::process::exit;

#[derive(Clone, Copy, PartialEq)]
enum Item<'s> {
    Push(&'s [u8]),
    Code(u8),
}

const SMALL: [u8; 17] = [0, 1, 2, 3, 4, 5, 6, 7, 8, 9, 10, 11, 12, 13, 14, 15, 16];

/// None where the bytes end inside an instruction.
fn items(script: &[u8]) -> Option<Vec<Item<'_>>> {
    let mut all = Vec::new();
    let mut at = 0;
    while let Some(&byte) = script.get(at) {
        at += 1;
        let length = match byte {
            0..=0x4b => byte as usize,
            0x4c => {
                at += 1;
                *script.get(at - 1)? as usize
            }
            0x4d => {
                at += 2;
                u16::from_le_bytes(script.get(at - 2..at)?.try_into().ok()?) as usize
            }
            0x51..=0x60 => {
                let n = (byte - 0x50) as usize;
                all.push(Item::Push(&SMALL[n..=n]));
                continue;
            }
            _ => {
                all.push(Item::Code(byte));
                continue;
            }
        };
        all.push(Item::Push(script.get(at..at + length)?));
        at += length;
    }
    Some(all)
}

fn number(bytes: &[u8]) -> Option<u64> {
    let fits = bytes.len() <= 5 && bytes.last().is_none_or(|last| last & 0x80 == 0);
    fits.then(|| bytes.iter().rev().fold(0, |sum, byte| sum << 8 | u64::from(*byte)))
}

pub fn key_of(bytes: &[u8]) -> Option<Key> {
    let key: Key = bytes.try_into().ok()?;
    (key[0] == 2 || key[0] == 3).then_some(key)
}

fn wrap(letter: u8, x: Tree) -> Tree {
    Tree::Wrap(letter, node(x))
}

fn two(kind: Two, x: Tree, y: Tree) -> Tree {
    Tree::Two(kind, node(x), node(y))
}

/// The items that are left, the last of which comes next, and the listed keys by their HASH160.
struct Reader<'s> {
    items: Vec<Item<'s>>,
    keys: HashMap<[u8; 20], Key>,
}

impl<'s> Reader<'s> {
    fn is_next(&mut self, code: u8) -> bool {
        let is_there = self.items.last() == Some(&Item::Code(code));
        if is_there {
            self.items.pop();
        }
        is_there
    }

    fn expect(&mut self, code: u8) -> Option<()> {
        self.is_next(code).then_some(())
    }

    fn push(&mut self) -> Option<&'s [u8]> {
        match self.items.pop()? {
            Item::Push(bytes) => Some(bytes),
            Item::Code(_) => None,
        }
    }

    /// A chain of `and_v`, up to the opcode that stands before it.
    fn chain(&mut self) -> Option<Tree> {
        let mut tree = self.single()?;
        while !matches!(self.items.last(), None | Some(Item::Code(0x63 | 0x64 | 0x67 | 0x6b | 0x7c))) {
            tree = two(Two::AndV, self.single()?, tree);
        }
        Some(tree)
    }

    /// An expression that is no `and_v`.
    fn single(&mut self) -> Option<Tree> {
        let code = match self.items.pop()? {
            Item::Code(code) => code,
            Item::Push([]) => return Some(Tree::Zero),
            Item::Push([1]) => return Some(Tree::One),
            Item::Push(bytes) => return key_of(bytes).map(Tree::PkK),
        };
        Some(match code {
            0xb2 => Tree::Older(number(self.push()?)?),
            0xb1 => Tree::After(number(self.push()?)?),
            0x87 => self.compared(false)?,
            0x88 => self.compared(true)?,
            0xac => wrap(b'c', self.single()?),
            0xad => wrap(b'v', wrap(b'c', self.single()?)),
            0xae => self.multi()?,
            0xaf => wrap(b'v', self.multi()?),
            0x69 => wrap(b'v', self.single()?),
            0x92 => wrap(b'n', self.single()?),
            0x9a => self.both(Two::AndB)?,
            0x9b => self.both(Two::OrB)?,
            0x68 => self.branches()?,
            _ => return None,
        })
    }

    fn both(&mut self, kind: Two) -> Option<Tree> {
        let second = self.side()?;
        Some(two(kind, self.single()?, second))
    }

    fn side(&mut self) -> Option<Tree> {
        let (letter, before) = if self.is_next(0x6c) { (b'a', 0x6b) } else { (b's', 0x7c) };
        let x = self.chain()?;
        self.expect(before)?;
        Some(wrap(letter, x))
    }

    fn branches(&mut self) -> Option<Tree> {
        let last = self.chain()?;
        if self.is_next(0x67) {
            let first = self.chain()?;
            return if self.is_next(0x63) {
                Some(two(Two::OrI, first, last))
            } else {
                self.expect(0x64)?;
                Some(Tree::AndOr(node(self.single()?), node(last), node(first)))
            };
        }
        if self.is_next(0x63) {
            return if self.is_next(0x76) {
                Some(wrap(b'd', last))
            } else {
                self.expect(0x92)?;
                self.expect(0x82)?;
                Some(wrap(b'j', last))
            };
        }
        self.expect(0x64)?;
        let kind = if self.is_next(0x73) { Two::OrD } else { Two::OrC };
        Some(two(kind, self.single()?, last))
    }

    /// What ends in EQUAL: a hash, `pk_h` or a threshold.
    fn compared(&mut self, is_verified: bool) -> Option<Tree> {
        let given = self.push()?;
        let kind = match self.items.last() {
            Some(Item::Code(0xa8)) => Some(HashKind::Sha256),
            Some(Item::Code(0xaa)) => Some(HashKind::Hash256),
            Some(Item::Code(0xa6)) => Some(HashKind::Ripemd160),
            Some(Item::Code(0xa9)) => Some(HashKind::Hash160),
            _ => None,
        };
        let tree = match kind {
            None => self.threshold(number(given)?)?,
            Some(kind) => {
                self.items.pop();
                if is_verified && self.is_next(0x76) {
                    return self.keys.get(given).map(|key| Tree::PkH(*key));
                }
                self.expect(0x88)?;
                (number(self.push()?)? == 32).then_some(())?;
                self.expect(0x82)?;
                let length = if matches!(kind, HashKind::Sha256 | HashKind::Hash256) { 32 } else { 20 };
                (given.len() == length).then(|| Tree::Hash(kind, given.to_vec()))?
            }
        };
        Some(if is_verified { wrap(b'v', tree) } else { tree })
    }

    fn threshold(&mut self, k: u64) -> Option<Tree> {
        let mut children = Vec::new();
        while self.is_next(0x93) {
            children.push(self.side()?);
        }
        children.push(self.single()?);
        children.reverse();
        Some(Tree::Thresh(k, children))
    }

    fn multi(&mut self) -> Option<Tree> {
        let count = number(self.push()?).filter(|count| (1..=20).contains(count))?;
        let mut keys = (0..count).map(|_| key_of(self.push()?)).collect::<Option<Vec<_>>>()?;
        keys.reverse();
        Some(Tree::Multi(number(self.push()?)?, keys))
    }
}

pub fn decode(script: &[u8], keys: &[Key]) -> Option<Tree> {
    if script.len() > 3_600 {
        return None;
    }
    let mut by_hash = HashMap::new();
    for key in keys {
        by_hash.entry(ripemd160(&sha256(key), ripemd_block_by_rounds)).or_insert(*key);
    }
    let mut reader = Reader { items: items(script)?, keys: by_hash };
    let tree = reader.chain()?;
    if !reader.items.is_empty() {
        return None;
    }
    let valid = valid_tree(tree)?;
    (valid.script == script).then_some(valid.tree)
}

fn main() {
    let words: Vec<Vec<u8>> = std::env::args().skip(1).map(|word| decoded(word.as_bytes()).expect("digits")).collect();
    let keys: Vec<Key> = words[1..].iter().map(|bytes| key_of(bytes).expect("a key")).collect();
    match decode(&words[0], &keys) {
        Some(tree) => {
            let mut out = String::from("text ");
            put_tree(&mut out, &tree);
            println!("{out}");
        }
        None => {
            println!("no reading");
            exit(10);
        }
    }
}
