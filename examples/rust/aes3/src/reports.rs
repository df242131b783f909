use crate::{Error, Lock, Report};
use std::{
    fmt,
    io::{self, ErrorKind, Read},
    iter::FusedIterator,
};

/// Octets that are read at once.
const PIECE: usize = 65536;

/// The form in which the cells of a line are read.
#[derive(Clone, Copy, Debug, PartialEq, Eq)]
pub enum Form {
    /// A cell is `0` or `1`. Line feeds, carriage returns and spaces are skipped.
    Text,
    /// Eight cells an octet, the first in the highest bit. One last octet counts the unused cells before it.
    Packed,
    /// The same without that last octet.
    Raw,
}

/// The reports of a line that is read from any `Read`, as the lines of `aes3 check`.
///
/// An item is an error if the input can't be read, or is rejected: [`Error`] is then inside the `io::Error`. The items before it
/// are the reports that the cells before it decide. An error is the last item. Reads that are interrupted are repeated.
///
/// ```
/// use aes3::{Block, Error, Form, Report, Reports};
///
/// // Two blocks as packed cells, with a wrong cell in the second one.
/// let cells = Block::silence().encode(false)?;
/// let mut line: Vec<u8> = cells.iter().chain(&cells).flat_map(|word| aes3::octets_of_word(*word)).collect();
/// line[3100] ^= 0x10;
/// line.push(0);
/// let mut lines = Vec::new();
/// for report in Reports::new(&line[..], Form::Packed) {
///     lines.push(report?.to_string());
/// }
/// assert_eq!(lines, ["whole at 0 before 0", "fault at 24576 cell 24804 biphase"]);
///
/// // Octets that do not end as packed cells do.
/// let error = Reports::new(&[0, 8][..], Form::Packed).next().unwrap().unwrap_err();
/// assert_eq!(error.get_ref().unwrap().downcast_ref(), Some(&Error::NotPacked { len: 2 }));
/// # Ok::<(), Box<dyn std::error::Error>>(())
/// ```
pub struct Reports<R> {
    from: R,
    form: Form,
    lock: Lock,
    piece: Box<[u8]>,
    /// Octets read so far.
    read: u64,
    /// Octets of cells, of which the lock may take the first `ready`, and has taken this number of cells.
    octets: Vec<u8>,
    ready: usize,
    taken: usize,
    /// Cells after these, fewer than eight of text and eight of packed cells at most, the first in bit 0.
    rest: u64,
    rest_len: u32,
    state: State,
    error: Option<io::Error>,
}

enum State {
    /// Octets are taken and read.
    Octets,
    /// Nothing more is read: the rest is taken.
    Rest,
    /// What the end decides, or the error.
    End,
    Done,
}

impl<R: Read> Reports<R> {
    /// The reports of the cells that are read from here, in this form.
    pub fn new(from: R, form: Form) -> Reports<R> {
        Reports {
            from,
            form,
            lock: Lock::new(),
            piece: vec![0; PIECE].into_boxed_slice(),
            read: 0,
            octets: Vec::new(),
            ready: 0,
            taken: 0,
            rest: 0,
            rest_len: 0,
            state: State::Octets,
            error: None,
        }
    }

    /// How many cells the lock has seen: at the last report those up to the cell that decides it, at the end all.
    pub fn seen(&self) -> u64 {
        self.lock.seen()
    }

    /// What it reads from. Octets that were read already are lost.
    pub fn into_inner(self) -> R {
        self.from
    }

    /// Reads a piece; at the end of the input, or at an error, the state is `Rest`.
    fn fill(&mut self) {
        self.octets.drain(..self.ready);
        self.ready = 0;
        self.taken = 0;
        let count = loop {
            match self.from.read(&mut self.piece) {
                Err(error) if error.kind() == ErrorKind::Interrupted => {}
                other => break other,
            }
        };
        let ended = match count {
            Ok(0) => self.end_packed(),
            Ok(count) => return self.add(count),
            Err(error) => Err(error),
        };
        self.error = ended.err();
        self.state = State::Rest;
    }

    /// Adds the cells of the piece that was read.
    fn add(&mut self, count: usize) {
        match self.form {
            Form::Text => self.add_text(count),
            Form::Raw | Form::Packed => self.octets.extend_from_slice(&self.piece[..count]),
        }
        // Only the end shows which octet of packed cells is the last.
        let held = if self.form == Form::Packed { 2 } else { 0 };
        self.ready = self.octets.len().saturating_sub(held);
        self.read += count as u64;
    }

    fn add_text(&mut self, count: usize) {
        for (i, byte) in self.piece[..count].iter().enumerate() {
            match byte {
                b'0' | b'1' => {
                    self.rest |= u64::from(byte & 1) << self.rest_len;
                    self.rest_len += 1;
                    if self.rest_len == 8 {
                        self.octets.push((self.rest as u8).reverse_bits());
                        self.rest = 0;
                        self.rest_len = 0;
                    }
                }
                b'\n' | b'\r' | b' ' => {}
                _ => {
                    self.error = Some(Error::NotACell { at: self.read + i as u64 }.into());
                    return;
                }
            }
        }
    }

    /// The cells of the last octet but one of packed cells.
    fn end_packed(&mut self) -> io::Result<()> {
        if self.form != Form::Packed {
            return Ok(());
        }
        let wrong = Err(Error::NotPacked { len: self.read }.into());
        match self.octets[..] {
            [0] => Ok(()),
            [octet, unused] if unused < 8 && octet & ((1 << unused) - 1) == 0 => {
                self.rest = octet.reverse_bits().into();
                self.rest_len = 8 - u32::from(unused);
                Ok(())
            }
            _ => wrong,
        }
    }
}

impl<R: Read> Iterator for Reports<R> {
    type Item = io::Result<Report>;

    fn next(&mut self) -> Option<io::Result<Report>> {
        loop {
            match self.state {
                State::Octets => {
                    let (taken, report) = self.lock.take_octets_once(&self.octets[..self.ready], self.taken);
                    self.taken += taken;
                    if report.is_some() {
                        return report.map(Ok);
                    }
                    if self.taken < 8 * self.ready {
                        self.error = Some(Error::Full.into());
                        self.state = State::End;
                    } else if self.error.is_some() {
                        self.state = State::Rest;
                    } else {
                        self.fill();
                    }
                }
                State::Rest if self.rest_len == 0 => self.state = State::End,
                State::Rest => {
                    let (taken, report) = self.lock.push_once(self.rest, self.rest_len);
                    self.rest = self.rest.checked_shr(taken).unwrap_or(0);
                    self.rest_len -= taken;
                    if report.is_some() {
                        return report.map(Ok);
                    }
                    if taken == 0 {
                        self.error = Some(Error::Full.into());
                        self.state = State::End;
                    }
                }
                State::End => {
                    self.state = State::Done;
                    return match self.error.take() {
                        Some(error) => Some(Err(error)),
                        None => self.lock.finish().map(Ok),
                    };
                }
                State::Done => return None,
            }
        }
    }
}

impl<R: Read> FusedIterator for Reports<R> {}

impl<R> fmt::Debug for Reports<R> {
    fn fmt(&self, to: &mut fmt::Formatter<'_>) -> fmt::Result {
        to.debug_struct("Reports").field("form", &self.form).field("seen", &self.lock.seen()).finish_non_exhaustive()
    }
}
