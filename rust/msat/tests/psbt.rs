// SPDX-License-Identifier: MIT
//! The types of PSBTs against every report of the questions in the folder `MSAT_PSBTS`, each of which is spelled anew of what was read,
//! and against broken ones.

use msat::psbt::{Amount, Fee, Hashes, Inspection, NotSane, State, read_hashes, read_inspection};
use msat::{Error, Judgement, PsbtFault};
use std::env;
use std::fmt::Write;
use std::fs;
use std::path::PathBuf;

fn hex(bytes: &[u8]) -> String {
    if bytes.is_empty() { "-".to_owned() } else { bytes.iter().map(|it| format!("{it:02x}")).collect() }
}

fn hash(hash: Option<[u8; 32]>) -> String {
    hash.map_or("-".to_owned(), |it| hex(&it))
}

fn word(judgement: Option<&Judgement>) -> String {
    judgement.map_or(String::new(), |it| format!(" {it:?}").to_lowercase())
}

fn state(state: &State) -> String {
    match state {
        State::Unfit(NotSane::Malleable(rule)) => format!("Unfit Malleable {rule:?}"),
        State::Unfit(reason) => format!("Unfit {reason:?}"),
        State::Other(name) => name.clone(),
        known => format!("{known:?}"),
    }
}

fn spelled(told: &Inspection) -> Result<String, std::fmt::Error> {
    let mut lines = String::new();
    let (inputs, outputs) = (told.inputs.len(), told.outputs.len());
    writeln!(
        lines,
        "psbt inputs {inputs} outputs {outputs} version {} locktime {} txid {}",
        told.version, told.locktime, told.txid
    )?;
    if let Some(txid) = &told.final_txid {
        writeln!(lines, "final txid {txid}")?;
    }
    for (number, output) in told.outputs.iter().enumerate() {
        writeln!(lines, "output {number} {} {}", output.amount, hex(&output.script))?;
    }
    match told.fee {
        Fee::Proved(fee) => writeln!(lines, "fee {fee} proved")?,
        Fee::Claimed(fee) => writeln!(lines, "fee {fee} claimed")?,
        Fee::Negative => writeln!(lines, "fee negative")?,
        _ => writeln!(lines, "fee unknown")?,
    }
    for input in &told.inputs {
        writeln!(lines, "input {} {}", input.number, state(&input.state))?;
        writeln!(lines, "outpoint {} {} sequence {}", input.txid, input.index, input.sequence)?;
        match input.amount {
            Amount::Proved(amount) => writeln!(lines, "amount {amount} proved")?,
            Amount::Claimed(amount) => writeln!(lines, "amount {amount} claimed")?,
            _ => writeln!(lines, "amount unknown")?,
        }
        if input.state == State::Final {
            writeln!(lines, "unchecked")?;
        }
        if let Some(kind) = &input.kind {
            writeln!(lines, "kind {kind}")?;
        }
        for (number, (key, kind)) in input.signatures.iter().enumerate() {
            writeln!(lines, "signature {} {kind}{}", hex(key), word(input.words.get(number)))?;
        }
        let texts = [("text", &input.text), ("policy", &input.policy)];
        for (name, text) in texts.into_iter().filter_map(|(name, it)| it.as_ref().map(|it| (name, it))) {
            writeln!(lines, "{name} {text}")?;
        }
        if let Some(weight) = input.weight {
            writeln!(lines, "weight {weight}")?;
        }
        for key in &input.asked {
            writeln!(lines, "ask {}", hex(key))?;
        }
        if let Some(most) = input.most {
            writeln!(lines, "weight at most {most}")?;
        }
        if input.is_vain {
            writeln!(lines, "no plan")?;
        }
    }
    Ok(lines)
}

fn spelled_hashes(told: &[Hashes]) -> Result<String, std::fmt::Error> {
    let mut lines = String::new();
    for input in told {
        writeln!(lines, "input {} {}", input.number, state(&input.state))?;
        if let Some(asked) = input.asked {
            let name = if asked.hash_type == 1 { "sign" } else { "sign-other" };
            writeln!(lines, "{name} {} {}", asked.hash_type, hash(asked.hash))?;
        }
        for check in &input.checks {
            let judged = word(check.word.as_ref());
            writeln!(lines, "check {} {} {}{judged}", hex(&check.key), hex(&check.signature), hash(check.hash))?;
        }
    }
    Ok(lines)
}

struct Question {
    place: PathBuf,
    words: String,
    source: Vec<u8>,
    status: u32,
    report: Vec<u8>,
}

fn questions() -> Vec<Question> {
    let Some(top) = env::var_os("MSAT_PSBTS") else { return Vec::new() };
    let folders = fs::read_dir(top).expect("the folder of the questions").map(|it| it.expect("a folder").path());
    let question = |place: PathBuf| Question {
        words: fs::read_to_string(place.join("words")).expect("words").trim().replace(char::is_whitespace, " "),
        source: fs::read(place.join("source")).expect("a PSBT"),
        status: fs::read_to_string(place.join("status")).map_or(0, |it| it.trim().parse().expect("a status")),
        report: fs::read(place.join("report")).expect("a report"),
        place,
    };
    folders.map(question).collect()
}

fn spelled_settled(told: &Inspection, question: &Question) -> String {
    assert_eq!(told.is_settled(), question.status == 0, "{:?}", question.place);
    spelled(told).expect("lines")
}

#[test]
fn every_report_is_read_whole() {
    let (mut read, mut refused) = (0, 0);
    for it in questions() {
        let report = String::from_utf8_lossy(&it.report).into_owned();
        let said = match it.words.as_str() {
            "inspect" => msat::psbt::inspect(&it.source).map(|told| spelled_settled(&told, &it)),
            "inspect --unverified" => msat::psbt::inspect_unverified(&it.source).map(|told| spelled_settled(&told, &it)),
            "hashes" => msat::psbt::hashes(&it.source).map(|told| spelled_hashes(&told).expect("lines")),
            "hashes --unverified" => msat::psbt::hashes_unverified(&it.source).map(|told| spelled_hashes(&told).expect("lines")),
            _ => continue,
        };
        match said {
            Ok(lines) => assert_eq!((lines, read += 1), (report, ()), "{:?}", it.place),
            Err(error) => {
                assert_eq!((format!("{error}\n"), refused += 1), (report, ()), "{:?}", it.place);
                assert!(!matches!(error, Error::Psbt(it) if it.fault == PsbtFault::Other), "{:?}", it.place);
            }
        }
    }
    assert!(env::var_os("MSAT_PSBTS").is_none() || (read > 20 && refused > 5), "{read} reports and {refused} refusals");
}

/// The PSBTs that the lines of a question are, where each line is one.
fn parts(source: &[u8]) -> Vec<&[u8]> {
    let is_blank = |line: &[u8]| line.iter().all(|it| b" \t\r".contains(it));
    let mut lines: Vec<_> = source.split(|it| *it == b'\n').collect();
    if lines.last().is_some_and(|it| is_blank(it)) {
        lines.pop();
    }
    if lines.iter().any(|it| is_blank(it)) { Vec::new() } else { lines }
}

#[test]
fn parts_become_one_in_the_form_of_the_first() {
    let (mut made, mut refused) = (0, 0);
    for it in questions().into_iter().filter(|it| it.words == "combine" && !it.source.starts_with(b"psbt")) {
        let parts = parts(&it.source);
        match msat::psbt::combine(&parts) {
            Ok(one) if parts.len() > 1 => {
                assert_eq!(one, it.report.trim_ascii_end(), "{:?}", it.place);
                made += 1;
            }
            Ok(one) => assert_eq!(one, it.report.trim_ascii_end(), "{:?}", it.place),
            Err(_) if parts.is_empty() => refused += 1,
            Err(error) => assert_eq!((format!("{error}\n").into_bytes(), refused += 1), (it.report, ()), "{:?}", it.place),
        }
    }
    assert!(env::var_os("MSAT_PSBTS").is_none() || (made > 3 && refused > 5), "{made} combined and {refused} refusals");
}

#[test]
fn bytes_come_back_as_bytes() {
    let is_taken = |it: &Question| it.words == "finalize" && it.status != 3 && it.source.starts_with(b"psbt\xff");
    for it in questions().into_iter().filter(is_taken) {
        let both = [&it.source[..], &it.source[..]];
        assert_eq!(msat::psbt::combine(&both).as_ref(), Ok(&it.source), "{:?}", it.place);
    }
    let empty: [&[u8]; 1] = [b" \n"];
    assert_eq!(msat::psbt::combine(&empty), msat::psbt::hashes(b"").map(|_| Vec::new()));
}

#[test]
fn broken_reports_are_no_trap() {
    let mut seed = 1_u64;
    let mut below = |limit: usize| {
        seed ^= seed >> 12;
        seed ^= seed << 25;
        seed ^= seed >> 27;
        usize::try_from(seed.wrapping_mul(2_685_821_657_736_338_717) >> 33).unwrap_or(0) % limit.max(1)
    };
    for it in questions().into_iter().filter(|it| it.words.starts_with("inspect") || it.words.starts_with("hashes")) {
        for _ in 0..200 {
            let mut bytes = it.report.clone();
            for _ in 0..=below(4) {
                let place = below(bytes.len());
                match below(3) {
                    0 => bytes.truncate(place),
                    1 if !bytes.is_empty() => drop(bytes.remove(place)),
                    _ => bytes.insert(place.min(bytes.len()), b"0123456789af -\ngw\xff"[below(18)]),
                }
            }
            let report = String::from_utf8_lossy(&bytes);
            if let Some(told) = read_inspection(&report) {
                spelled(&told).expect("lines");
            }
            if let Some(told) = read_hashes(&report) {
                spelled_hashes(&told).expect("lines");
            }
        }
    }
}
