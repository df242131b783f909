//! `recover [--packed-in] WAV`: a damaged line on standard input, as text or as packed cells. Writes the samples of its whole
//! blocks to the file WAV, as `aes3 to-wav -o WAV` does. Prints every fault and gap with its place, and a fault with its cause:
//! the lines of `aes3 check --gaps` except those of whole blocks.
//!
//! Status 0: no fault. 1: faults, or gaps that count. 2: usage error. 3: the input is rejected, or the input or output failed.
//! The header is written last. So after status 3 WAV has no header, and no program reads it as a WAV file.

use aes3::{Account, Block, Channel, Form, Gap, Report, Reports, Wav, WavBits, BLOCK_WORDS};
use std::fs::File;
use std::io::{self, BufWriter, Read, Seek, SeekFrom, Write};
use std::process::ExitCode;

const BITS: WavBits = WavBits::B24;

/// A WAV file of the samples of blocks. Zeros are in the place of its header until that is written.
struct WavFile {
    file: BufWriter<File>,
    frames: u64,
    /// The sampling frequency that the first block names.
    rate: Option<u32>,
}

impl WavFile {
    fn create(name: &str) -> io::Result<WavFile> {
        let mut file = BufWriter::new(File::create(name)?);
        file.write_all(&vec![0; Wav::write(BITS, 0, None).len()])?;
        Ok(WavFile { file, frames: 0, rate: None })
    }

    fn put(&mut self, block: &Block) -> io::Result<()> {
        let octets: Vec<u8> = block.samples()?.iter().flat_map(|sample| BITS.octets_of(*sample)).collect();
        self.file.write_all(&octets)?;
        if self.frames == 0 {
            self.rate = block.status(Channel::One)?.rate();
        }
        self.frames += BLOCK_WORDS as u64 / 2;
        Ok(())
    }

    fn end(mut self) -> io::Result<()> {
        if self.frames > 0 && self.rate.is_none() {
            eprintln!("recover: the line names no sampling frequency: the file says 48000 Hz");
        }
        // The samples are in the file before its header is.
        self.file.flush()?;
        self.file.seek(SeekFrom::Start(0))?;
        self.file.write_all(&Wav::write(BITS, self.rate.unwrap_or(48_000), Some(self.frames)))?;
        self.file.flush()
    }
}

/// Prints lines, and keeps the first error and whether a line is of a fault.
struct Lines<W> {
    to: W,
    result: io::Result<()>,
    has_faults: bool,
}

impl<W: Write> Lines<W> {
    fn put(&mut self, line: &dyn std::fmt::Display, is_fault: bool) {
        if self.result.is_ok() {
            self.result = writeln!(self.to, "{line}");
        }
        self.has_faults |= is_fault;
    }

    fn gap(&mut self, gap: Gap) {
        self.put(&gap, gap.counts);
    }

    fn end(&mut self) -> io::Result<()> {
        std::mem::replace(&mut self.result, Ok(())).and_then(|()| self.to.flush())
    }
}

/// Whether there are faults, or gaps that count.
fn recover(from: impl Read, form: Form, to: impl Write, name: &str) -> io::Result<bool> {
    let mut wav = WavFile::create(name)?;
    let mut lines = Lines { to, result: Ok(()), has_faults: false };
    let mut account = Account::new();
    let mut reports = Reports::new(from, form);
    while let Some(report) = reports.next() {
        let report = match report {
            Ok(report) => report,
            Err(error) => {
                account.passed(reports.seen(), |gap| lines.gap(gap));
                lines.end()?;
                return Err(error);
            }
        };
        account.before(&report, |gap| lines.gap(gap));
        match &report {
            Report::Whole { block, .. } => wav.put(block)?,
            other => lines.put(other, other.is_fault()),
        }
        account.passed(reports.seen(), |gap| lines.gap(gap));
    }
    account.end(reports.seen(), |gap| lines.gap(gap));
    lines.end()?;
    wav.end()?;
    Ok(lines.has_faults)
}

fn main() -> ExitCode {
    let words: Vec<String> = std::env::args().skip(1).collect();
    let (form, name) = match &words[..] {
        [name] if !name.starts_with('-') => (Form::Text, name),
        [option, name] if option == "--packed-in" && !name.starts_with('-') => (Form::Packed, name),
        _ => {
            eprintln!("usage: recover [--packed-in] WAV <LINE");
            return ExitCode::from(2);
        }
    };
    match recover(io::stdin().lock(), form, BufWriter::new(io::stdout().lock()), name) {
        Ok(has_faults) => ExitCode::from(u8::from(has_faults)),
        Err(error) => {
            eprintln!("recover: {error}");
            ExitCode::from(3)
        }
    }
}
