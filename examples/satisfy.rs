// SPDX-License-Identifier: MIT
//! Prints what `msat satisfy TEXT` prints for an asset file, by a call of the library.
//! Usage: satisfy TEXT ASSET-FILE

use std::io::Write;
use std::process::ExitCode;

const NO_MEMORY: u32 = 7;
const UNREADABLE: u32 = 11;

unsafe extern "C" {
    fn msat_answer(
        count: usize,
        words: *const u8,
        words_len: usize,
        source: *const u8,
        source_len: usize,
        report: *mut u8,
        report_len: usize,
        needed: *mut usize,
    ) -> u32;
}

/// The code and the whole report of these words and this source. Codes 7 and 11 come without a report.
fn answer(words: &[&str], source: &[u8]) -> (u32, Vec<u8>) {
    let joined: Vec<u8> = words.iter().flat_map(|word| word.bytes().chain([0])).collect();
    let mut report = vec![0; 4096];
    loop {
        let mut needed = 0;
        // The buffers are this function's own, so they overlap nothing and stay for the whole call.
        let code = unsafe {
            msat_answer(
                words.len(),
                joined.as_ptr(),
                joined.len(),
                source.as_ptr(),
                source.len(),
                report.as_mut_ptr(),
                report.len(),
                &mut needed,
            )
        };
        if needed <= report.len() {
            report.truncate(needed);
            return (code, report);
        }
        report.resize(needed, 0);
    }
}

fn main() -> ExitCode {
    let words: Vec<String> = std::env::args().skip(1).collect();
    let [text, file] = words.as_slice() else {
        eprintln!("usage: satisfy TEXT ASSET-FILE");
        return ExitCode::from(1);
    };
    let source = match std::fs::read(file) {
        Ok(source) => source,
        Err(error) => {
            eprintln!("satisfy: {file}: {error}");
            return ExitCode::from(1);
        }
    };
    let (code, report) = answer(&["satisfy", text], &source);
    if code == NO_MEMORY || code == UNREADABLE {
        eprintln!("satisfy: there is no report");
    }
    let written = std::io::stdout().write_all(&report);
    ExitCode::from(if written.is_ok() { code as u8 } else { 6 })
}
