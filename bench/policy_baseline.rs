//! What `msat policy TEXT` does, by plain Rust over trees in one room, to be measured beside the proved program. Refusals aren't told apart.
//! Usage: policy_baseline TEXT. The exit status is 0, or 2 where `refused` is printed.

#[allow(dead_code)]
#[path = "satisfy_baseline.rs"]
mod satisfy_baseline;

use satisfy_baseline::check_baseline::{HashKind, Key, Tree, Two, put_of, valid};
use satisfy_baseline::is_sane;
use std::process::exit;

enum Policy {
    Never,
    Always,
    Key(Key),
    Older(u64),
    After(u64),
    Hash(HashKind, Vec<u8>),
    All(Vec<Policy>),
    Any(Vec<Policy>),
    Thresh(u64, Vec<Policy>),
}

use Policy::{Always, All, Any, Never, Thresh};

/// A tree's policy, made simple.
fn policy_of(tree: &Tree) -> Policy {
    match tree {
        Tree::Zero => Never,
        Tree::One => Always,
        Tree::PkK(key) | Tree::PkH(key) => Policy::Key(*key),
        Tree::Older(n) => Policy::Older(*n),
        Tree::After(n) => Policy::After(*n),
        Tree::Hash(kind, value) => Policy::Hash(*kind, value.clone()),
        Tree::AndOr(x, y, z) => any(vec![all(vec![policy_of(x), policy_of(y)]), policy_of(z)]),
        Tree::Two(Two::AndV | Two::AndB, x, z) => all(vec![policy_of(x), policy_of(z)]),
        Tree::Two(_, x, z) => any(vec![policy_of(x), policy_of(z)]),
        Tree::Thresh(k, children) => threshold(*k, children.iter().map(policy_of).collect()),
        Tree::Multi(k, keys) => threshold(*k, keys.iter().copied().map(Policy::Key).collect()),
        Tree::Wrap(_, x) => policy_of(x),
    }
}

fn all(parts: Vec<Policy>) -> Policy {
    let mut opened = Vec::with_capacity(parts.len());
    for part in parts {
        match part {
            Never => return Never,
            Always => {}
            All(parts) => opened.extend(parts),
            part => opened.push(part),
        }
    }
    match opened.len() {
        0 => Always,
        1 => opened.remove(0),
        _ => All(opened),
    }
}

fn any(parts: Vec<Policy>) -> Policy {
    let mut opened = Vec::with_capacity(parts.len());
    for part in parts {
        match part {
            Always => return Always,
            Never => {}
            Any(parts) => opened.extend(parts),
            part => opened.push(part),
        }
    }
    match opened.len() {
        0 => Never,
        1 => opened.remove(0),
        _ => Any(opened),
    }
}

fn threshold(k: u64, mut parts: Vec<Policy>) -> Policy {
    let met = parts.iter().filter(|part| matches!(part, Always)).count() as u64;
    parts.retain(|part| !matches!(part, Always | Never));
    match (k.saturating_sub(met), parts.len() as u64) {
        (0, _) => Always,
        (k, count) if k > count => Never,
        (1, _) => any(parts),
        (k, count) if k == count => all(parts),
        (k, _) => Thresh(k, parts),
    }
}

/// The least number of keys that suffice where each hash and lock is met.
fn least_keys(policy: &Policy) -> Option<u64> {
    match policy {
        Never => None,
        Policy::Key(_) => Some(1),
        Always | Policy::Older(_) | Policy::After(_) | Policy::Hash(..) => Some(0),
        All(parts) => least_of(parts.len(), parts),
        Any(parts) => least_of(1, parts),
        Thresh(k, parts) => least_of(*k as usize, parts),
    }
}

fn least_of(k: usize, parts: &[Policy]) -> Option<u64> {
    let mut numbers: Vec<u64> = parts.iter().filter_map(least_keys).collect();
    numbers.sort_unstable();
    Some(numbers.get(..k)?.iter().sum())
}

fn put_policy(out: &mut String, policy: &Policy) {
    match policy {
        Never => out.push_str("never"),
        Always => out.push_str("always"),
        Policy::Key(key) => put_of(out, "key", key),
        Policy::Older(n) => out.push_str(&format!("older({n})")),
        Policy::After(n) => out.push_str(&format!("after({n})")),
        Policy::Hash(HashKind::Sha256, value) => put_of(out, "sha256", value),
        Policy::Hash(HashKind::Hash256, value) => put_of(out, "hash256", value),
        Policy::Hash(HashKind::Ripemd160, value) => put_of(out, "ripemd160", value),
        Policy::Hash(HashKind::Hash160, value) => put_of(out, "hash160", value),
        All(parts) => put_parts(out, "all(", parts),
        Any(parts) => put_parts(out, "any(", parts),
        Thresh(k, parts) => put_parts(out, &format!("thresh({k},"), parts),
    }
}

fn put_parts(out: &mut String, begin: &str, parts: &[Policy]) {
    out.push_str(begin);
    for (i, part) in parts.iter().enumerate() {
        if i > 0 {
            out.push(',');
        }
        put_policy(out, part);
    }
    out.push(')');
}

fn main() {
    let text = std::env::args().nth(1).expect("a text");
    let Some(valid) = valid(&text).filter(|valid| is_sane(&valid.tree)) else {
        println!("refused");
        exit(2);
    };
    let policy = policy_of(&valid.tree);
    let mut out = String::from("policy ");
    put_policy(&mut out, &policy);
    match least_keys(&policy) {
        Some(keys) => println!("{out}\nkeys {keys}"),
        None => println!("{out}\nkeys none"),
    }
}
