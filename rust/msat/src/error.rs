// SPDX-License-Identifier: MIT
//! Why a call gives no result.

use crate::names;
use std::fmt;

/// Why a call gives no result.
#[derive(Clone, Debug, PartialEq, Eq, Hash)]
#[non_exhaustive]
pub enum Error {
    /// The text is refused.
    Text(TextRefusal),
    /// The file is refused, or the assets, what is known or the run for what a file with the same would be.
    File(FileRefusal),
    /// The PSBT is refused.
    Psbt(PsbtRefusal),
    /// The descriptor is refused, or what it has at a branch and an index.
    Descriptor(DescriptorRefusal),
    /// There is no canonical satisfaction with what is held, or no plan.
    NoSatisfaction,
    /// The interpreter refuses a script.
    Script(RunRefusal),
    /// A stack isn't accepted for a text.
    NotAccepted(RunRefusal),
    /// No miniscript that is valid by the limits of policy, with the keys named, has the Script.
    NoReading,
    /// A key isn't a compressed one.
    Usage,
    /// A word of `answer` holds a NUL.
    Unreadable,
    /// Memory was wanting.
    Memory,
    /// A code that this version doesn't know.
    Other(u32),
}

/// Why a text is refused.
#[derive(Clone, Debug, PartialEq, Eq, Hash)]
#[non_exhaustive]
pub enum TextRefusal {
    /// It isn't read, at this byte where the fault has a place.
    Fault(TextFault, Option<u32>),
    /// The first reason against its tree.
    Unfit(Unfit),
}

/// Why a text isn't read.
#[derive(Clone, Copy, Debug, PartialEq, Eq, Hash)]
#[non_exhaustive]
pub enum TextFault {
    TooLong,
    Syntax,
    TooDeep,
}

/// Why a tree isn't valid, or isn't sane. Places are bytes of the text.
#[derive(Clone, Copy, Debug, PartialEq, Eq, Hash)]
#[non_exhaustive]
pub enum Unfit {
    Rule { rule: Rule, place: u32 },
    TopNotB,
    Size(u64),
    Ops(u64),
    Items(u64),
    Malleable { rule: Rule, place: u32 },
    NoSignature,
    MixedLocks { place: u32 },
    RepeatedKey { place: u32 },
}

/// Why a file is refused, and which member and element of it, where the refusal names one.
#[derive(Clone, Copy, Debug, PartialEq, Eq, Hash)]
#[non_exhaustive]
pub struct FileRefusal {
    pub fault: FileFault,
    pub member: Option<Member>,
    pub element: Option<u32>,
}

/// Why a file is refused.
#[derive(Clone, Copy, Debug, PartialEq, Eq, Hash)]
#[non_exhaustive]
pub enum FileFault {
    TooLong,
    NotJson,
    Shape,
    Number,
    Hex,
    KeyForm,
    SigLength,
    PreimageLength,
    TooMany,
    RepeatedKey,
    Length,
}

/// The fault of a run, and the instruction that met it, from 0; the number of instructions for a fault of the end.
#[derive(Clone, Copy, Debug, PartialEq, Eq, Hash)]
#[non_exhaustive]
pub struct RunRefusal {
    pub fault: RunFault,
    pub place: u32,
}

/// Why a run is refused. docs/FORMATS.md says what each is; `WrongScript` is of an audit alone, whose script isn't that of the text.
#[derive(Clone, Copy, Debug, PartialEq, Eq, Hash)]
#[non_exhaustive]
pub enum RunFault {
    ScriptSize,
    ElementSize,
    Truncated,
    NonMinimalPush,
    Unsupported,
    OpCount,
    StackUnderflow,
    AltUnderflow,
    Unbalanced,
    MinimalIf,
    Verify,
    NumberForm,
    NegativeLock,
    UnmetLock,
    KeyForm,
    NullFail,
    NullDummy,
    KeyCount,
    SigCount,
    StackSize,
    CleanStack,
    EvalFalse,
    WrongScript,
}

/// Why a PSBT is refused, and the byte of it, from 0, where the refusal has a place. Of several that are combined also which one it is, from 1.
#[derive(Clone, Copy, Debug, PartialEq, Eq, Hash)]
#[non_exhaustive]
pub struct PsbtRefusal {
    pub fault: PsbtFault,
    pub place: Option<u64>,
    pub line: Option<u64>,
}

/// Why a descriptor is refused. docs/FORMATS.md says when each reason comes.
#[derive(Clone, Debug, PartialEq, Eq, Hash)]
#[non_exhaustive]
pub struct DescriptorRefusal {
    /// The name of the reason, and what stands behind it in the report.
    pub reason: String,
    /// The byte of the descriptor, from 0, where the reason has a place.
    pub place: Option<u32>,
    /// The branch and the index at which there is no sane condition, where the descriptor itself is read.
    pub at: Option<(u32, u32)>,
}

/// Why a PSBT is refused. docs/FORMATS.md says when each comes.
#[derive(Clone, Copy, Debug, PartialEq, Eq, Hash)]
#[non_exhaustive]
pub enum PsbtFault {
    TooLong,
    NotBase64,
    Magic,
    Truncated,
    Size,
    RepeatedKey,
    KeyForm,
    ValueForm,
    Version,
    NoTransaction,
    Trailing,
    Excluded,
    RepeatedOutpoint,
    LockTime,
    NoPsbt,
    OtherVersion,
    OtherTransaction,
    /// One that this version doesn't know.
    Other,
}

/// A member of a file.
#[derive(Clone, Copy, Debug, PartialEq, Eq, Hash)]
#[non_exhaustive]
pub enum Member {
    File,
    Version,
    Sequence,
    Locktime,
    Signatures,
    Preimages,
    Script,
    Witness,
    Format,
    Keys,
}

/// A requirement of BIP 379's tables of types. docs/FORMATS.md says what each asks for.
#[derive(Clone, Copy, Debug, PartialEq, Eq, Hash)]
#[non_exhaustive]
pub enum Rule {
    OlderRange,
    AfterRange,
    AndOrX,
    AndOrYZ,
    AndVX,
    AndVY,
    AndBX,
    AndBY,
    OrBX,
    OrBZ,
    OrCX,
    OrCZ,
    OrDX,
    OrDZ,
    OrIXZ,
    ThreshRange,
    ThreshFirst,
    ThreshOther,
    MultiRange,
    WrapA,
    WrapS,
    WrapC,
    WrapD,
    WrapV,
    WrapJ,
    WrapN,
    AndOrE,
    AndOrS,
    OrBE,
    OrBS,
    OrCE,
    OrCS,
    OrDE,
    OrDS,
    OrIS,
    ThreshE,
    ThreshS,
}

impl fmt::Display for Error {
    /// As the report of the program says it.
    fn fmt(&self, f: &mut fmt::Formatter<'_>) -> fmt::Result {
        match self {
            Error::Text(refusal) => write!(f, "refused text {refusal}"),
            Error::File(refusal) => write!(f, "refused file {refusal}"),
            Error::Psbt(refusal) => match refusal.line {
                Some(line) => write!(f, "refused line {line} {refusal}"),
                None => write!(f, "refused psbt {refusal}"),
            },
            Error::Descriptor(refusal) => match refusal.at {
                Some((branch, index)) => write!(f, "refused branch {branch} index {index} {}", refusal.reason),
                None => write!(f, "refused descriptor {}", refusal.reason),
            },
            Error::NoSatisfaction => f.write_str("no satisfaction"),
            Error::Script(refusal) => write!(f, "refused script {refusal}"),
            Error::NotAccepted(refusal) => write!(f, "not accepted {refusal}"),
            Error::NoReading => f.write_str("no reading"),
            Error::Usage => f.write_str("refused usage"),
            Error::Unreadable => f.write_str("a word holds a NUL"),
            Error::Memory => f.write_str("memory was wanting"),
            Error::Other(code) => write!(f, "the library answers {code}"),
        }
    }
}

impl std::error::Error for Error {}

impl fmt::Display for TextRefusal {
    fn fmt(&self, f: &mut fmt::Formatter<'_>) -> fmt::Result {
        match self {
            TextRefusal::Fault(fault, None) => write!(f, "{fault:?}"),
            TextRefusal::Fault(fault, Some(place)) => write!(f, "{fault:?} at {place}"),
            TextRefusal::Unfit(unfit) => unfit.fmt(f),
        }
    }
}

impl fmt::Display for Unfit {
    fn fmt(&self, f: &mut fmt::Formatter<'_>) -> fmt::Result {
        match self {
            Unfit::Rule { rule, place } => write!(f, "Rule {rule:?} at {place}"),
            Unfit::TopNotB => f.write_str("TopNotB"),
            Unfit::Size(n) => write!(f, "Size {n}"),
            Unfit::Ops(n) => write!(f, "Ops {n}"),
            Unfit::Items(n) => write!(f, "Items {n}"),
            Unfit::Malleable { rule, place } => write!(f, "Malleable {rule:?} at {place}"),
            Unfit::NoSignature => f.write_str("NoSignature"),
            Unfit::MixedLocks { place } => write!(f, "MixedLocks at {place}"),
            Unfit::RepeatedKey { place } => write!(f, "RepeatedKey at {place}"),
        }
    }
}

impl fmt::Display for RunRefusal {
    fn fmt(&self, f: &mut fmt::Formatter<'_>) -> fmt::Result {
        match self.fault {
            RunFault::WrongScript => f.write_str("WrongScript"),
            fault => write!(f, "{fault:?} at {}", self.place),
        }
    }
}

impl fmt::Display for PsbtRefusal {
    fn fmt(&self, f: &mut fmt::Formatter<'_>) -> fmt::Result {
        match self.place {
            Some(place) => write!(f, "{:?} at {place}", self.fault),
            None => write!(f, "{:?}", self.fault),
        }
    }
}

impl fmt::Display for FileRefusal {
    fn fmt(&self, f: &mut fmt::Formatter<'_>) -> fmt::Result {
        write!(f, "{:?}", self.fault)?;
        if let Some(member) = self.member {
            write!(f, " {}", names::of_member(member))?;
        }
        match self.element {
            Some(element) => write!(f, " {element}"),
            None => Ok(()),
        }
    }
}
