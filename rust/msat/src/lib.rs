// SPDX-License-Identifier: MIT
//! A Miniscript satisfier for P2WSH outputs, over its proved library.
//!
//! Each call is one call of the library, which is proved to answer what msat's definitions say. What is Rust here, the buffers
//! and the enums, is tested and not proved. No state is kept, so threads may call at once.
//!
//! ```
//! use msat::{Assets, Rules, Signature};
//!
//! let key = [2; 33];
//! let text = format!("pk({})", "02".repeat(33));
//! assert_eq!(msat::script(&text, Rules::Policy)?.len(), 35);
//! let held = Assets { signatures: vec![Signature { key, bytes: vec![0xaa; 71] }], ..Assets::default() };
//! let items = msat::satisfy(&text, &held, Rules::Policy)?;
//! assert_eq!(items.iter().map(Vec::len).collect::<Vec<_>>(), [71, 35]);
//! # Ok::<(), msat::Error>(())
//! ```

mod calls;
pub mod descriptor;
mod error;
mod names;
pub mod psbt;

pub use calls::{
    answer, audit, check, decode, descriptor_answer, least_weight, plan, point, policy, psbt_answer, run, satisfy, satisfy_malleable, script,
    signature, version, witness, witness_malleable,
};
pub use error::{
    DescriptorRefusal, Error, FileFault, FileRefusal, Member, PsbtFault, PsbtRefusal, Rule, RunFault, RunRefusal, TextFault, TextRefusal, Unfit,
};

/// By which limits a text is held.
#[derive(Clone, Copy, Debug, Default, PartialEq, Eq, Hash)]
#[non_exhaustive]
pub enum Rules {
    /// Those of policy, within which nodes relay a spend.
    #[default]
    Policy,
    /// Those of consensus alone.
    Consensus,
}

/// A base type of BIP 379.
#[derive(Clone, Copy, Debug, PartialEq, Eq, Hash)]
#[non_exhaustive]
pub enum Base {
    B,
    V,
    K,
    W,
}

/// What is known of a sane text: its limits, the greatest numbers over all canonical satisfactions; its height, the most elements
/// that both stacks hold together in the run of one; its base type, and the properties of both of its types that hold.
#[derive(Clone, Debug, PartialEq, Eq, Hash)]
#[non_exhaustive]
pub struct Facts {
    pub size: u64,
    pub ops: u64,
    pub items: u64,
    pub weight: u64,
    pub height: u64,
    pub base: Base,
    /// Of the letters z, o, n, d, u, s, f and e those that hold, in this order.
    pub properties: String,
}

/// A signature as it stands in a witness, in DER with the byte of its hash type, and its compressed key.
#[derive(Clone, Debug, PartialEq, Eq, Hash)]
pub struct Signature {
    pub key: [u8; 33],
    pub bytes: Vec<u8>,
}

/// What a signature is by a key and for a hash.
#[derive(Clone, Copy, Debug, PartialEq, Eq, Hash)]
#[non_exhaustive]
pub enum Judgement {
    /// None of the two below.
    Bad,
    /// The key has signed the hash, in strict DER (BIP 66), and s is at most half of the order (BIP 146).
    Good,
    /// So it is, but s is over half: consensus takes it, and nodes don't relay it.
    High,
}

/// What a wallet holds for a spend. Of several signatures of a key the shortest is taken, of several shortest the first.
#[derive(Clone, Debug, PartialEq, Eq, Hash)]
pub struct Assets {
    /// The version of the transaction.
    pub version: u32,
    /// The sequence number of the input.
    pub sequence: u32,
    /// The locktime of the transaction.
    pub locktime: u32,
    pub signatures: Vec<Signature>,
    pub preimages: Vec<[u8; 32]>,
}

impl Default for Assets {
    /// No signature and no preimage, and what an asset file without its numbers has: no timelock holds.
    fn default() -> Assets {
        Assets { version: 2, sequence: 0xffff_fffe, locktime: 0, signatures: Vec::new(), preimages: Vec::new() }
    }
}

/// A key that can sign, and how many bytes its signature is estimated to have at most, with the byte of its hash type.
#[derive(Clone, Copy, Debug, PartialEq, Eq, Hash)]
pub struct Estimate {
    pub key: [u8; 33],
    pub length: usize,
}

/// What a plan is made by, before anyone signs.
#[derive(Clone, Debug, PartialEq, Eq, Hash)]
pub struct Known {
    /// The version of the transaction.
    pub version: u32,
    /// The sequence number of the input.
    pub sequence: u32,
    /// The locktime of the transaction.
    pub locktime: u32,
    /// The keys that can sign, each once.
    pub keys: Vec<Estimate>,
    pub preimages: Vec<[u8; 32]>,
}

impl Default for Known {
    /// No key and no preimage, and what a plan file without its numbers has: no timelock holds.
    fn default() -> Known {
        Known { version: 2, sequence: 0xffff_fffe, locktime: 0, keys: Vec::new(), preimages: Vec::new() }
    }
}

/// The keys to ask for a signature, in the order of the nodes and, in a `multi`, of its positions; and what the satisfaction weighs
/// at most then, where none of theirs is longer than estimated.
#[derive(Clone, Debug, PartialEq, Eq, Hash)]
#[non_exhaustive]
pub struct Plan {
    pub keys: Vec<[u8; 33]>,
    pub weight: u64,
}

/// A script, and what it runs on.
#[derive(Clone, Debug, PartialEq, Eq, Hash)]
pub struct Run {
    /// The version of the transaction.
    pub version: u32,
    /// The sequence number of the input.
    pub sequence: u32,
    /// The locktime of the transaction.
    pub locktime: u32,
    pub script: Vec<u8>,
    /// The stack, bottom first, without the script.
    pub stack: Vec<Vec<u8>>,
    /// The signatures that are good.
    pub signatures: Vec<Signature>,
}

impl Default for Run {
    /// An empty script and stack, no good signature, and what a run file without its numbers has: no timelock holds.
    fn default() -> Run {
        Run { version: 2, sequence: 0xffff_fffe, locktime: 0, script: Vec::new(), stack: Vec::new(), signatures: Vec::new() }
    }
}

/// A run that is accepted: its opcodes, the most elements that the stacks held, and the good signatures that it passed, in order.
#[derive(Clone, Debug, PartialEq, Eq, Hash)]
#[non_exhaustive]
pub struct Accepted {
    pub ops: u32,
    pub peak: u32,
    pub checks: Vec<Signature>,
}

/// A node that takes part in a satisfaction.
#[derive(Clone, Copy, Debug, PartialEq, Eq, Hash)]
#[non_exhaustive]
pub struct Step {
    /// The byte of the text where its name or letter stands.
    pub place: u32,
    /// Whether it is satisfied, or else dissatisfied.
    pub satisfied: bool,
    /// Whether the row of BIP 379's table isn't canonical.
    pub extra: bool,
}

/// How a stack that is accepted satisfies a text: what its run counted, by which rows, children first, and whether all are canonical.
#[derive(Clone, Debug, PartialEq, Eq, Hash)]
#[non_exhaustive]
pub struct Audit {
    pub ops: u32,
    pub peak: u32,
    pub steps: Vec<Step>,
    pub canonical: bool,
}
