//! What `msat lines` does for questions with the words `script`, `check`, `decode` and `satisfy`, by plain Rust over the plain programs of
//! these, to be measured beside the proved program. Refusals aren't told apart.
//! Usage: lines_baseline, with questions on standard input.

#[allow(dead_code)]
#[path = "decode_baseline.rs"]
mod decode_baseline;
#[allow(dead_code)]
#[path = "satisfy_baseline.rs"]
mod satisfy_baseline;

use decode_baseline::check_baseline::{decoded, put_tree};
use decode_baseline::{decode, key_of};
use satisfy_baseline::check_baseline::{put_digits, valid};
use satisfy_baseline::{Value, check, object_of, satisfy};
use std::io::{BufRead, BufReader, Write, stdin, stdout};

/// A status and a report.
type Answer = (u8, String);

fn script(text: &str) -> Option<String> {
    let mut out = String::new();
    put_digits(&mut out, &valid(text)?.script);
    out.push('\n');
    Some(out)
}

fn decode_words(words: &[&str]) -> Option<Answer> {
    let script = decoded(words[0].as_bytes())?;
    let keys = words[1..].iter().map(|word| key_of(&decoded(word.as_bytes())?)).collect::<Option<Vec<_>>>()?;
    Some(match decode(&script, &keys) {
        Some(tree) => {
            let mut out = String::from("text ");
            put_tree(&mut out, &tree);
            out.push('\n');
            (0, out)
        }
        None => (10, "no reading\n".into()),
    })
}

fn done(report: Option<String>) -> Answer {
    report.map_or_else(|| (2, "refused\n".into()), |report| (0, report))
}

fn answer(words: &[&str], source: &str) -> Answer {
    match words {
        ["script", text] => done(script(text)),
        ["check", text] => done(check(text, false)),
        ["decode", rest @ ..] if !rest.is_empty() => decode_words(rest).unwrap_or((1, "refused usage\n".into())),
        ["satisfy", text] => match satisfy(text, true, || source.as_bytes().to_vec()) {
            Some(Some(report)) => (0, report),
            Some(None) => (4, "no satisfaction\n".into()),
            None => (2, "refused\n".into()),
        },
        _ => (1, "refused usage\n".into()),
    }
}

fn put_id(out: &mut String, id: Option<&Value>) -> Option<()> {
    match id {
        None => (),
        Some(Value::Number(n)) => out.push_str(&format!("\"id\":{n},")),
        Some(Value::Text(text)) => {
            let fits = text.len() <= 256 && text.bytes().all(|byte| matches!(byte, 0x20..0x7f) && byte != b'"' && byte != b'\\');
            fits.then(|| out.push_str(&format!("\"id\":\"{text}\",")))?;
        }
        Some(_) => return None,
    }
    Some(())
}

fn strings(value: &Value) -> Option<Vec<&str>> {
    match value {
        Value::List(elements) => elements.iter().map(Value::text).collect(),
        _ => None,
    }
}

/// Adds the line that answers a line.
fn put_answer(out: &mut String, line: &[u8]) {
    let mut id = String::new();
    let asked = object_of(line);
    let question = asked.as_ref().and_then(|object| {
        put_id(&mut id, object.member("id"))?;
        let words = strings(object.member("words")?)?;
        let source = object.member("source").map_or(Some(""), Value::text)?;
        Some((words, source))
    });
    let (status, report) = question.map_or_else(|| (12, "refused line\n".into()), |(words, source)| answer(&words, source));
    out.push_str(&format!("{{{id}\"status\":{status},\"report\":\""));
    for (place, part) in report.split('\n').enumerate() {
        out.push_str(if place > 0 { "\\n" } else { "" });
        out.push_str(part);
    }
    out.push_str("\"}\n");
}

fn main() {
    let mut source = BufReader::with_capacity(1 << 16, stdin().lock());
    let mut sink = stdout().lock();
    let mut line = Vec::new();
    let mut out = String::new();
    while source.read_until(b'\n', &mut line).expect("lines") > 0 {
        put_answer(&mut out, line.strip_suffix(b"\n").unwrap_or(&line));
        line.clear();
        if out.len() >= 1 << 16 || !source.buffer().contains(&b'\n') {
            sink.write_all(out.as_bytes()).expect("a sink");
            out.clear();
        }
    }
}
