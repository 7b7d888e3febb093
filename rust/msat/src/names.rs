// SPDX-License-Identifier: MIT
//! What the numbers of `struct msat_reason` stand for: kinds from 1, rules and members from 0, in the order of the header.

use crate::error::{
    Error, FileFault, FileRefusal, Member, PsbtFault, Rule, RunFault, RunRefusal, TextFault, TextRefusal, Unfit,
};
use msat_sys::{
    MSAT_FILE_REFUSED, MSAT_NO_MEMORY, MSAT_NO_READING, MSAT_NO_SATISFACTION, MSAT_NOT_ACCEPTED, MSAT_SCRIPT_REFUSED,
    MSAT_TEXT_REFUSED, MSAT_UNREADABLE, MSAT_USAGE, msat_outcome, msat_reason,
};

/// The rules in the order of their numbers.
pub(crate) const RULES: [Rule; 37] = [
    Rule::OlderRange,
    Rule::AfterRange,
    Rule::AndOrX,
    Rule::AndOrYZ,
    Rule::AndVX,
    Rule::AndVY,
    Rule::AndBX,
    Rule::AndBY,
    Rule::OrBX,
    Rule::OrBZ,
    Rule::OrCX,
    Rule::OrCZ,
    Rule::OrDX,
    Rule::OrDZ,
    Rule::OrIXZ,
    Rule::ThreshRange,
    Rule::ThreshFirst,
    Rule::ThreshOther,
    Rule::MultiRange,
    Rule::WrapA,
    Rule::WrapS,
    Rule::WrapC,
    Rule::WrapD,
    Rule::WrapV,
    Rule::WrapJ,
    Rule::WrapN,
    Rule::AndOrE,
    Rule::AndOrS,
    Rule::OrBE,
    Rule::OrBS,
    Rule::OrCE,
    Rule::OrCS,
    Rule::OrDE,
    Rule::OrDS,
    Rule::OrIS,
    Rule::ThreshE,
    Rule::ThreshS,
];

/// The faults of a run in the order of their numbers, from 1 on.
const FAULTS: [RunFault; 23] = [
    RunFault::ScriptSize,
    RunFault::ElementSize,
    RunFault::Truncated,
    RunFault::NonMinimalPush,
    RunFault::Unsupported,
    RunFault::OpCount,
    RunFault::StackUnderflow,
    RunFault::AltUnderflow,
    RunFault::Unbalanced,
    RunFault::MinimalIf,
    RunFault::Verify,
    RunFault::NumberForm,
    RunFault::NegativeLock,
    RunFault::UnmetLock,
    RunFault::KeyForm,
    RunFault::NullFail,
    RunFault::NullDummy,
    RunFault::KeyCount,
    RunFault::SigCount,
    RunFault::StackSize,
    RunFault::CleanStack,
    RunFault::EvalFalse,
    RunFault::WrongScript,
];

/// The members with their names, in the order of their numbers.
const MEMBERS: [(Member, &str); 10] = [
    (Member::File, "file"),
    (Member::Version, "version"),
    (Member::Sequence, "sequence"),
    (Member::Locktime, "locktime"),
    (Member::Signatures, "signatures"),
    (Member::Preimages, "preimages"),
    (Member::Script, "script"),
    (Member::Witness, "witness"),
    (Member::Format, "format"),
    (Member::Keys, "keys"),
];

/// The faults of PSBTs.
const PSBT_FAULTS: [PsbtFault; 17] = [
    PsbtFault::TooLong,
    PsbtFault::NotBase64,
    PsbtFault::Magic,
    PsbtFault::Truncated,
    PsbtFault::Size,
    PsbtFault::RepeatedKey,
    PsbtFault::KeyForm,
    PsbtFault::ValueForm,
    PsbtFault::Version,
    PsbtFault::NoTransaction,
    PsbtFault::Trailing,
    PsbtFault::Excluded,
    PsbtFault::RepeatedOutpoint,
    PsbtFault::LockTime,
    PsbtFault::NoPsbt,
    PsbtFault::OtherVersion,
    PsbtFault::OtherTransaction,
];

/// The rule that a report calls so.
pub(crate) fn rule(name: &str) -> Option<Rule> {
    RULES.into_iter().find(|it| format!("{it:?}") == name)
}

/// The fault of a PSBT that a report calls so.
pub(crate) fn psbt_fault(name: &str) -> Option<PsbtFault> {
    PSBT_FAULTS.into_iter().find(|it| format!("{it:?}") == name)
}

pub(crate) fn of_member(member: Member) -> &'static str {
    MEMBERS.iter().find(|it| it.0 == member).map_or("", |it| it.1)
}

/// The refusal of a code that isn't `MSAT_DONE`.
pub(crate) fn error(code: u32, reason: &msat_reason) -> Error {
    let told = match code {
        MSAT_TEXT_REFUSED => text(reason).map(Error::Text),
        MSAT_FILE_REFUSED => file(reason).map(Error::File),
        MSAT_NO_SATISFACTION => Some(Error::NoSatisfaction),
        MSAT_NO_READING => Some(Error::NoReading),
        MSAT_USAGE => Some(Error::Usage),
        MSAT_NO_MEMORY => Some(Error::Memory),
        MSAT_UNREADABLE => Some(Error::Unreadable),
        _ => None,
    };
    told.unwrap_or(Error::Other(code))
}

/// The refusal of a run's code that isn't `MSAT_DONE`.
pub(crate) fn run_error(code: u32, outcome: &msat_outcome, reason: &msat_reason) -> Error {
    let refusal = || {
        let fault = FAULTS.get(usize::try_from(outcome.fault).ok()?.checked_sub(1)?).copied()?;
        Some(RunRefusal { fault, place: outcome.place })
    };
    match (code, refusal()) {
        (MSAT_SCRIPT_REFUSED, Some(refusal)) => Error::Script(refusal),
        (MSAT_NOT_ACCEPTED, Some(refusal)) => Error::NotAccepted(refusal),
        _ => error(code, reason),
    }
}

fn text(reason: &msat_reason) -> Option<TextRefusal> {
    let place = reason.place;
    let rule = || RULES.get(usize::try_from(reason.rule).ok()?).copied();
    Some(match reason.kind {
        1 => TextRefusal::Fault(TextFault::TooLong, None),
        2 => TextRefusal::Fault(TextFault::Syntax, Some(place)),
        3 => TextRefusal::Fault(TextFault::TooDeep, Some(place)),
        4 => TextRefusal::Unfit(Unfit::Rule { rule: rule()?, place }),
        5 => TextRefusal::Unfit(Unfit::TopNotB),
        6 => TextRefusal::Unfit(Unfit::Size(reason.number)),
        7 => TextRefusal::Unfit(Unfit::Ops(reason.number)),
        8 => TextRefusal::Unfit(Unfit::Items(reason.number)),
        9 => TextRefusal::Unfit(Unfit::Malleable { rule: rule()?, place }),
        10 => TextRefusal::Unfit(Unfit::NoSignature),
        11 => TextRefusal::Unfit(Unfit::MixedLocks { place }),
        12 => TextRefusal::Unfit(Unfit::RepeatedKey { place }),
        _ => return None,
    })
}

fn file(reason: &msat_reason) -> Option<FileRefusal> {
    let member = || Some(MEMBERS.get(usize::try_from(reason.rule).ok()?)?.0);
    let (fault, has_member, has_element) = match reason.kind {
        13 => (FileFault::TooLong, false, false),
        14 => (FileFault::NotJson, false, false),
        15 => (FileFault::Shape, true, false),
        16 => (FileFault::Number, true, false),
        17 => (FileFault::Hex, true, true),
        18 => (FileFault::KeyForm, false, true),
        19 => (FileFault::SigLength, false, true),
        20 => (FileFault::PreimageLength, false, true),
        21 => (FileFault::TooMany, true, false),
        22 => (FileFault::RepeatedKey, false, true),
        23 => (FileFault::Length, false, true),
        _ => return None,
    };
    Some(FileRefusal {
        fault,
        member: if has_member { Some(member()?) } else { None },
        element: has_element.then_some(reason.place),
    })
}
