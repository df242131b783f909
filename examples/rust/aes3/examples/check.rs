//! Cell text on standard input, the lines of `aes3 check` on standard output, status 1 where there are faults.

use aes3::{Lock, Report};
use std::error::Error;
use std::io::{self, BufWriter, Read, Write};
use std::process::ExitCode;

fn main() -> Result<ExitCode, Box<dyn Error>> {
    let mut text = Vec::new();
    io::stdin().read_to_end(&mut text)?;
    text.retain(|byte| !matches!(byte, b'\n' | b'\r' | b' '));
    let lines = text.chunks_exact(64);
    let rest = lines.remainder();
    let words = lines.map(|line| aes3::word_of_text(line.try_into().ok()?));
    let words = words.collect::<Option<Vec<u64>>>().ok_or("a byte that is neither 0 nor 1")?;
    let last = rest.iter().rev().fold(0, |word, byte| word << 1 | u64::from(byte & 1));

    let mut reports = Vec::new();
    let mut lock = Lock::new();
    lock.take(&words, |report| reports.push(report))?;
    lock.push(last, rest.len() as u32, |report| reports.push(report))?;
    reports.extend(lock.finish());

    let mut out = BufWriter::new(io::stdout().lock());
    for report in &reports {
        writeln!(out, "{report}")?;
    }
    let is_wrong = reports.iter().any(|it| matches!(it, Report::Marked { .. } | Report::Fault { .. }));
    Ok(ExitCode::from(u8::from(is_wrong)))
}
