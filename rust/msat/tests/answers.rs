// SPDX-License-Identifier: MIT
//! The calls against the reports of the examples, whose folder `MSAT_EXAMPLES` names, and against one another.

use msat::descriptor::Network;
use msat::{
    Assets, Error, Estimate, FileFault, Judgement, Known, Member, Rule, Rules, Run, RunFault, Signature, TextFault, TextRefusal, Unfit,
};
use std::env;
use std::fs;
use std::path::PathBuf;
use std::thread;

const KEY: [u8; 33] = [2; 33];

fn text_of_key() -> String {
    format!("pk({})", "02".repeat(33))
}

fn held(sig: usize) -> Assets {
    Assets { signatures: vec![Signature { key: KEY, bytes: vec![0xaa; sig] }], ..Assets::default() }
}

fn hex(bytes: &[u8]) -> String {
    bytes.iter().map(|it| format!("{it:02x}")).collect()
}

/// The asset file with the same as assets that are held.
fn file_of(held: &Assets) -> String {
    let signatures: Vec<String> =
        held.signatures.iter().map(|it| format!(r#"{{"key":"{}","sig":"{}"}}"#, hex(&it.key), hex(&it.bytes))).collect();
    let preimages: Vec<String> = held.preimages.iter().map(|it| format!(r#""{}""#, hex(it))).collect();
    format!(
        r#"{{"format":2,"version":{},"sequence":{},"locktime":{},"signatures":[{}],"preimages":[{}]}}"#,
        held.version,
        held.sequence,
        held.locktime,
        signatures.join(","),
        preimages.join(",")
    )
}

struct Example {
    folder: PathBuf,
    words: Vec<String>,
    source: Vec<u8>,
    report: String,
    status: u32,
}

fn examples() -> Vec<Example> {
    let Some(top) = env::var_os("MSAT_EXAMPLES") else { return Vec::new() };
    let mut found = Vec::new();
    for entry in fs::read_dir(top).expect("the folder of the examples") {
        let folder = entry.expect("a folder").path();
        let Ok(words) = fs::read_to_string(folder.join("words")) else { continue };
        let mut words: Vec<String> = words.split_whitespace().map(str::to_owned).collect();
        words.extend(fs::read_to_string(folder.join("text")).ok().map(|it| it.trim_end().to_owned()));
        let source = ["assets.json", "run.json", "plan.json"].iter().find_map(|it| fs::read(folder.join(it)).ok());
        found.push(Example {
            words,
            source: source.unwrap_or_default(),
            report: fs::read_to_string(folder.join("report")).expect("a report"),
            status: fs::read_to_string(folder.join("status")).map_or(0, |it| it.trim().parse().expect("a status")),
            folder,
        });
    }
    found
}

fn try_example(example: &Example) {
    let words: Vec<&str> = example.words.iter().map(String::as_str).collect();
    assert_eq!(msat::answer(&words, &example.source), Ok((example.status, example.report.clone())), "{:?}", example.folder);
    let rules = if words.contains(&"--consensus") { Rules::Consensus } else { Rules::Policy };
    let Some(text) = example.folder.join("text").exists().then(|| words[words.len() - 1]) else { return };
    let lines = |name: &str| -> Vec<String> {
        let start = format!("{name} ");
        example.report.lines().filter_map(|it| it.strip_prefix(&start)).map(str::to_owned).collect()
    };
    match words[0] {
        "script" => assert_eq!(msat::script(text, rules).map(|it| hex(&it) + "\n"), Ok(example.report.clone())),
        "check" => match msat::check(text, rules) {
            Ok(facts) => {
                assert!(lines("limits")[0].starts_with(&format!(
                    "size {} ops {} items {} weight {}",
                    facts.size, facts.ops, facts.items, facts.weight
                )));
                assert_eq!(lines("type")[0], format!("{:?}{}", facts.base, facts.properties));
            }
            Err(error) => assert_eq!(format!("{error}\n"), example.report),
        },
        "satisfy" => {
            let malleable = words.contains(&"--malleable");
            let call = if malleable { msat::witness_malleable } else { msat::witness };
            match call(text, &example.source, rules) {
                Ok(mut items) => {
                    assert_eq!(items.pop().map(|it| hex(&it)), Some(lines("script")[0].clone()));
                    let printed: Vec<String> =
                        items.iter().map(|it| if it.is_empty() { "-".to_owned() } else { hex(it) }).collect();
                    assert_eq!(printed, lines("item"));
                    let weight = items.iter().map(|it| 1 + it.len() as u64).sum::<u64>();
                    assert!(msat::least_weight(text, &example.source, rules).is_ok_and(|it| it <= weight));
                }
                Err(error) => assert_eq!(format!("{error}\n"), example.report),
            }
        }
        "policy" => match msat::policy(text) {
            Ok((printed, keys)) => {
                assert_eq!(printed, lines("policy")[0]);
                assert_eq!(keys.map_or("none".to_owned(), |it| it.to_string()), lines("keys")[0]);
            }
            Err(error) => assert_eq!(format!("{error}\n"), example.report),
        },
        _ => {}
    }
}

#[test]
fn scripts_are_read_back() {
    let text = format!("c:pk_k({})", hex(&KEY));
    let script = msat::script(&text, Rules::Policy).expect("a Script");
    assert_eq!(msat::decode(&script, &[]), Ok(text));
    let hashed = format!("c:pk_h({})", hex(&KEY));
    let script = msat::script(&hashed, Rules::Policy).expect("a Script");
    assert_eq!(msat::decode(&script, &[[3; 33], KEY]), Ok(hashed));
    assert_eq!(msat::decode(&script, &[[3; 33]]), Err(Error::NoReading));
    assert_eq!(msat::decode(&script, &[KEY, [4; 33]]), Err(Error::Usage));
}

#[test]
fn examples_have_their_answers() {
    examples().iter().for_each(try_example);
}

#[test]
fn psbts_have_their_answers() {
    let Some(top) = env::var_os("MSAT_EXAMPLES") else { return };
    for entry in fs::read_dir(PathBuf::from(top).join("psbt")).expect("the folder of the PSBTs") {
        let folder = entry.expect("a folder").path();
        let Ok(words) = fs::read_to_string(folder.join("words")) else { continue };
        let words: Vec<&str> = words.split_whitespace().collect();
        let source = fs::read(folder.join("source")).expect("a PSBT");
        let report = fs::read(folder.join("report")).expect("a report");
        let status: u32 = fs::read_to_string(folder.join("status")).map_or(0, |it| it.trim().parse().expect("a status"));
        assert_eq!(msat::psbt_answer(&words, &source), Ok((status, report)), "{folder:?}");
    }
}

/// Each row of examples/descriptors, in a folder of its own, as .ci/hosts/descriptor_rows.py writes them.
#[test]
fn descriptors_have_their_answers() {
    let Some(top) = env::var_os("MSAT_DESCRIPTORS") else { return };
    for entry in fs::read_dir(top).expect("the folder of the descriptors") {
        let folder = entry.expect("a folder").path();
        let words = fs::read_to_string(folder.join("words")).expect("words");
        let words: Vec<&str> = words.split_whitespace().collect();
        let source = fs::read(folder.join("source")).expect("a source");
        let report = fs::read(folder.join("report")).expect("a report");
        let status: u32 = fs::read_to_string(folder.join("status")).expect("a status").trim().parse().expect("a status");
        assert_eq!(msat::descriptor_answer(&words, &source), Ok((status, report.clone())), "{folder:?}");
        let report = String::from_utf8_lossy(&report);
        if let (["check", descriptor], 0 | 2 | 4) = (&words[..], status) {
            match msat::descriptor::check(descriptor) {
                Ok(told) => assert!(report.starts_with(&format!("descriptor {}\nkind {}\n", told.text, told.kind)), "{folder:?}"),
                Err(error) => assert_eq!(format!("{error}\n"), report, "{folder:?}"),
            }
        }
        if let (["derive", descriptor, index], 0 | 2) = (&words[..], status) {
            match msat::descriptor::derive(descriptor, Network::Own, 0, index.parse().expect("an index")) {
                Ok(told) => assert!(report.starts_with(&format!("index {index}\naddress {}\n", told.address)), "{folder:?}"),
                Err(error) => assert_eq!(format!("{error}\n"), report, "{folder:?}"),
            }
        }
    }
}

#[test]
fn threads_have_the_same_answers() {
    let all = examples();
    thread::scope(|scope| {
        for _ in 0..8 {
            let each = || all.iter().for_each(try_example);
            thread::Builder::new().stack_size(512 * 1024).spawn_scoped(scope, each).expect("a thread");
        }
    });
}

#[test]
fn assets_give_what_a_file_with_the_same_gives() {
    let other = [3; 33];
    let text =
        format!("or_d(multi(2,{},{}),and_v(v:pkh({}),older(9)))", hex(&KEY), hex(&other), "02".to_owned() + &"01".repeat(32));
    let mut late: [u8; 33] = [1; 33];
    late[0] = 2;
    let signatures =
        [(KEY, 72), (other, 71), (KEY, 70), (late, 73)].map(|(key, size)| Signature { key, bytes: vec![0xaa; size] });
    for count in 0..=signatures.len() {
        for sequence in [9, 8, 0xffff_fffe] {
            let held =
                Assets { signatures: signatures[..count].to_vec(), sequence, preimages: vec![[0; 32]], ..Assets::default() };
            let file = file_of(&held);
            assert_eq!(msat::satisfy(&text, &held, Rules::Policy), msat::witness(&text, file.as_bytes(), Rules::Policy));
            assert_eq!(
                msat::satisfy_malleable(&text, &held, Rules::Consensus),
                msat::witness_malleable(&text, file.as_bytes(), Rules::Consensus)
            );
        }
    }
}

#[test]
fn refused_assets_are_named() {
    let mut twice = held(71);
    twice.signatures.push(twice.signatures[0].clone());
    let mut other = held(71);
    other.signatures.push(Signature { key: [4; 33], bytes: vec![1] });
    let many = Assets { preimages: vec![[0; 32]; 257], ..Assets::default() };
    for (assets, wanted) in [
        (held(0), Some((FileFault::SigLength, None, Some(0)))),
        (held(74), Some((FileFault::SigLength, None, Some(0)))),
        (twice, Some((FileFault::RepeatedKey, None, Some(1)))),
        (other, Some((FileFault::KeyForm, None, Some(1)))),
        (many, Some((FileFault::TooMany, Some(Member::Preimages), None))),
        (Assets::default(), None),
    ] {
        let refused = msat::satisfy(&text_of_key(), &assets, Rules::Policy).expect_err("a refusal");
        assert_eq!(Err(&refused), msat::witness(&text_of_key(), file_of(&assets).as_bytes(), Rules::Policy).as_ref());
        match refused {
            Error::File(it) => assert_eq!(Some((it.fault, it.member, it.element)), wanted),
            other => assert_eq!((other, wanted), (Error::NoSatisfaction, None)),
        }
    }
}

#[test]
fn refused_texts_are_named() {
    let text = |text: &str| msat::check(text, Rules::Policy).expect_err("a refusal");
    assert_eq!(text("pk(1)"), Error::Text(TextRefusal::Fault(TextFault::Syntax, Some(3))));
    assert_eq!(text("older(0)"), Error::Text(TextRefusal::Unfit(Unfit::Rule { rule: Rule::OlderRange, place: 0 })));
    assert_eq!(text("1"), Error::Text(TextRefusal::Unfit(Unfit::NoSignature)));
    assert_eq!(text("1\0").to_string(), "refused text Syntax at 1");
    assert_eq!(msat::witness(&text_of_key(), b"{", Rules::Policy).expect_err("a refusal").to_string(), "refused file NotJson");
    assert_eq!(msat::answer(&["script", "a\0"], b""), Err(Error::Unreadable));
}

#[test]
fn versions_agree() {
    assert_eq!(msat::version(), (1, 0, 0));
    assert_eq!(env!("CARGO_PKG_VERSION"), "1.0.0");
    assert_eq!(msat_sys::MSAT_VERSION_NUMBER, msat_sys::msat_version());
}

#[test]
fn plans_ask_for_the_shortest_signatures() {
    let other = [3; 33];
    let text = format!("multi(2,{},{},{})", hex(&KEY), "02".to_owned() + &"01".repeat(32), hex(&other));
    let mut middle = [1; 33];
    middle[0] = 2;
    let keys =
        vec![Estimate { key: other, length: 70 }, Estimate { key: middle, length: 72 }, Estimate { key: KEY, length: 71 }];
    let known = Known { keys, ..Known::default() };
    let plan = msat::plan(&text, &known).expect("a plan");
    // The empty item, and two signatures with the byte of their length.
    assert_eq!((plan.keys, plan.weight), (vec![KEY, other], 1 + 72 + 71));
    let one = Known { keys: known.keys[..1].to_vec(), ..Known::default() };
    assert_eq!(msat::plan(&text, &one), Err(Error::NoSatisfaction));
    let long = Known { keys: vec![Estimate { key: KEY, length: 74 }], ..Known::default() };
    let refused = msat::plan(&text, &long).expect_err("a refusal");
    assert_eq!(refused.to_string(), "refused file Length 0");
    assert!(
        matches!(refused, Error::File(it) if it.fault == FileFault::Length && it.member.is_none() && it.element == Some(0))
    );
}

#[test]
fn runs_have_their_outcome() {
    let signatures = vec![Signature { key: KEY, bytes: vec![0x30; 71] }];
    let script = msat::script(&text_of_key(), Rules::Policy).expect("a Script");
    let run = Run { script, stack: vec![vec![0x30; 71]], signatures: signatures.clone(), ..Run::default() };
    let accepted = msat::run(&run).expect("a run");
    assert_eq!((accepted.ops, accepted.peak, accepted.checks), (1, 2, signatures));
    let unsigned = Run { signatures: Vec::new(), ..run.clone() };
    let refused = msat::run(&unsigned).expect_err("a refusal");
    assert_eq!(refused.to_string(), "refused script NullFail at 1");
    assert!(matches!(refused, Error::Script(it) if it.fault == RunFault::NullFail && it.place == 1));
    let audit = msat::audit(&text_of_key(), &run).expect("an audit");
    let steps: Vec<_> = audit.steps.iter().map(|it| (it.place, it.satisfied, it.extra)).collect();
    assert_eq!((audit.ops, audit.peak, steps, audit.canonical), (1, 2, vec![(0, true, false); 2], true));
    let wrong = msat::audit("older(9)", &run).expect_err("a refusal");
    assert_eq!(wrong.to_string(), "not accepted WrongScript");
    assert!(matches!(wrong, Error::NotAccepted(it) if it.fault == RunFault::WrongScript));
}

/// A word of a row: bytes in digits, or none.
fn spelled(word: &str) -> Vec<u8> {
    let digits = word.trim_start_matches('-').as_bytes();
    digits.chunks(2).map(|pair| u8::from_str_radix(std::str::from_utf8(pair).unwrap(), 16).unwrap()).collect()
}

fn rows_of(name: &str) -> Vec<Vec<String>> {
    let Some(top) = env::var_os("MSAT_EXAMPLES") else { return Vec::new() };
    let rows = fs::read_to_string(PathBuf::from(top).join("signatures").join(name)).expect("the rows of signatures are there");
    rows.lines().map(|row| row.split(' ').map(str::to_owned).collect()).collect()
}

#[test]
fn signatures_have_their_judgement() {
    for row in rows_of("signature.rows") {
        let wanted = match row[4].as_str() {
            "good" => Judgement::Good,
            "high" => Judgement::High,
            _ => Judgement::Bad,
        };
        assert_eq!(msat::signature(&spelled(&row[1]), &spelled(&row[2]), &spelled(&row[3])), wanted, "{}", row[0]);
    }
}

#[test]
fn keys_have_their_point() {
    for row in rows_of("point.rows") {
        let point = msat::point(&spelled(&row[0])).map(|it| it.to_vec());
        assert_eq!(point.unwrap_or_default(), spelled(&row[1]), "{}", row[0]);
    }
}
