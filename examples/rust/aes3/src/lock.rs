use crate::{Block, Error, BLOCK_WORDS};
use aes3_sys as sys;
use core::{fmt, mem::MaybeUninit};

/// Why a cell shows that no block is there. Its text is the word of `aes3 check`.
#[derive(Clone, Copy, Debug, PartialEq, Eq)]
pub enum Why {
    /// The preamble of its subframe has the other level there.
    Preamble,
    /// A time slot does not begin with a change of level.
    Biphase,
    /// The cell after a block's last does not change the level.
    Unclosed,
}

impl fmt::Display for Why {
    fn fmt(&self, to: &mut fmt::Formatter<'_>) -> fmt::Result {
        to.write_str(match self {
            Why::Preamble => "preamble",
            Why::Biphase => "biphase",
            Why::Unclosed => "unclosed",
        })
    }
}

/// A report on a place where the preamble of a block is. Places are counted from the lock's first cell.
///
/// Its text is the line of `aes3 check`:
///
/// ```
/// use aes3::{Report, Why};
///
/// let report = Report::Fault { at: 24576, cell: 25236, why: Why::Biphase };
/// assert_eq!(report.to_string(), "fault at 24576 cell 25236 biphase");
/// assert!(report.is_fault());
/// ```
#[derive(Clone, Debug, PartialEq, Eq)]
#[allow(clippy::large_enum_variant)] // A lock is for memory that is not allocated.
pub enum Report {
    /// A whole block, all of whose parity bits are right.
    Whole {
        /// The place of its first cell.
        at: u64,
        /// The level of the cell before it.
        before: bool,
        /// The block.
        block: Block,
    },
    /// A whole block with wrong parity bits.
    Marked {
        /// The place of its first cell.
        at: u64,
        /// The level of the cell before it.
        before: bool,
        /// How many subframes have a wrong parity bit, 1 to 384.
        wrong: u16,
    },
    /// No block.
    Fault {
        /// The place of the first cell of the preamble.
        at: u64,
        /// The place of the first cell that shows it.
        cell: u64,
        /// What is wrong with that cell.
        why: Why,
    },
    /// A block that the end of the cells cuts.
    Unfinished {
        /// The place of its first cell.
        at: u64,
        /// How many of its cells there are.
        cells: u64,
    },
}

impl Report {
    fn of(told: &sys::aes3_report) -> Option<Report> {
        let sys::aes3_report { at, cell, wrong, .. } = *told;
        let before = told.before != 0;
        match told.kind {
            sys::AES3_WHOLE => Some(Report::Whole { at, before, block: Block { words: told.words } }),
            sys::AES3_MARKED => Some(Report::Marked { at, before, wrong }),
            sys::AES3_FAULT => {
                let why = match told.why {
                    sys::AES3_PREAMBLE => Why::Preamble,
                    sys::AES3_BIPHASE => Why::Biphase,
                    _ => Why::Unclosed,
                };
                Some(Report::Fault { at, cell, why })
            }
            sys::AES3_UNFINISHED => Some(Report::Unfinished { at, cells: cell }),
            _ => None,
        }
    }
}

impl Report {
    /// The place of the first cell of the preamble, counted from the lock's first.
    pub fn at(&self) -> u64 {
        match *self {
            Report::Whole { at, .. }
            | Report::Marked { at, .. }
            | Report::Fault { at, .. }
            | Report::Unfinished { at, .. } => at,
        }
    }

    /// Whether it counts among the faults of `aes3 check`: a marked block, or no block.
    pub fn is_fault(&self) -> bool {
        matches!(self, Report::Marked { .. } | Report::Fault { .. })
    }

    /// As the library reports it, but for the words of a block.
    pub(crate) fn told(&self) -> sys::aes3_report {
        let none = nothing();
        match *self {
            Report::Whole { at, before, .. } => {
                sys::aes3_report { at, before: before.into(), kind: sys::AES3_WHOLE, ..none }
            }
            Report::Marked { at, before, wrong } => {
                sys::aes3_report { at, before: before.into(), wrong, kind: sys::AES3_MARKED, ..none }
            }
            Report::Fault { at, cell, why } => {
                let why = match why {
                    Why::Preamble => sys::AES3_PREAMBLE,
                    Why::Biphase => sys::AES3_BIPHASE,
                    Why::Unclosed => sys::AES3_UNCLOSED,
                };
                sys::aes3_report { at, cell, why, kind: sys::AES3_FAULT, ..none }
            }
            Report::Unfinished { at, cells } => {
                sys::aes3_report { at, cell: cells, kind: sys::AES3_UNFINISHED, ..none }
            }
        }
    }
}

/// As a line of `aes3 check`.
impl fmt::Display for Report {
    fn fmt(&self, to: &mut fmt::Formatter<'_>) -> fmt::Result {
        match self {
            Report::Whole { at, before, .. } => write!(to, "whole at {at} before {}", u8::from(*before)),
            Report::Marked { at, before, wrong } => {
                write!(to, "marked at {at} before {} wrong {wrong}", u8::from(*before))
            }
            Report::Fault { at, cell, why } => write!(to, "fault at {at} cell {cell} {why}"),
            Report::Unfinished { at, cells } => write!(to, "unfinished at {at} cells {cells}"),
        }
    }
}

/// Finds the blocks in cells that come one after the other. A clone goes on from there by itself.
///
/// `Reports` does this for what is read from a file, a pipe or a socket.
///
/// ```
/// use aes3::{Block, Lock};
///
/// // Octets come in pieces of any size.
/// let cells = Block::silence().encode(false)?;
/// let line: Vec<u8> = cells.iter().flat_map(|word| aes3::octets_of_word(*word)).collect();
/// let mut lock = Lock::new();
/// let mut lines = Vec::new();
/// for piece in line.chunks(1000) {
///     lock.take_octets(piece, |report| lines.push(report.to_string()))?;
/// }
/// // Only the end of the cells decides the last block.
/// lines.extend(lock.finish().map(|report| report.to_string()));
/// assert_eq!(lines, ["whole at 0 before 0"]);
/// # Ok::<(), aes3::Error>(())
/// ```
#[derive(Clone)]
pub struct Lock {
    state: sys::aes3_lock,
}

impl Default for Lock {
    fn default() -> Lock {
        Lock::new()
    }
}

impl fmt::Debug for Lock {
    fn fmt(&self, to: &mut fmt::Formatter<'_>) -> fmt::Result {
        to.debug_struct("Lock").field("seen", &self.seen()).finish_non_exhaustive()
    }
}

/// A report with no content.
fn nothing() -> sys::aes3_report {
    sys::aes3_report { at: 0, cell: 0, words: [0; BLOCK_WORDS], wrong: 0, kind: sys::AES3_NONE, before: 0, why: 0 }
}

impl Lock {
    /// A lock that has seen no cell.
    pub fn new() -> Lock {
        let mut state = MaybeUninit::<sys::aes3_lock>::uninit();
        // SAFETY: the call writes all of the lock.
        let state = unsafe {
            sys::aes3_lock_init(state.as_mut_ptr());
            state.assume_init()
        };
        Lock { state }
    }

    /// How many cells it has seen.
    pub fn seen(&self) -> u64 {
        // SAFETY: the lock was made by aes3_lock_init.
        unsafe { sys::aes3_lock_seen(&self.state) }
    }

    /// Takes words of cells, and gives `tell` each report that they decide.
    pub fn take(&mut self, words: &[u64], mut tell: impl FnMut(Report)) -> Result<(), Error> {
        let mut left = words;
        loop {
            // SAFETY: the lock was made by aes3_lock_init, and the words are as many as is said.
            let taken = unsafe { sys::aes3_lock_take_words(&mut self.state, left.as_ptr(), left.len()) };
            match left[taken..].split_first() {
                None => return Ok(()),
                Some((word, rest)) => {
                    self.push(*word, 64, &mut tell)?;
                    left = rest;
                }
            }
        }
    }

    /// Takes the first `count` cells of a word, 64 at most, and gives `tell` each report that they decide.
    pub fn push(&mut self, word: u64, count: u32, mut tell: impl FnMut(Report)) -> Result<(), Error> {
        let (mut word, mut left) = (word, count.min(64));
        while left > 0 {
            let (taken, report) = self.push_once(word, left);
            if taken == 0 {
                return Err(Error::Full);
            }
            if let Some(report) = report {
                tell(report);
            }
            word = word.checked_shr(taken).unwrap_or(0);
            left -= taken;
        }
        Ok(())
    }

    /// The same up to the cell that decides a report: how many cells it took, and the report. It took none if it is full.
    pub(crate) fn push_once(&mut self, word: u64, count: u32) -> (u32, Option<Report>) {
        let mut report = nothing();
        // SAFETY: the lock was made by aes3_lock_init, and the report is another place.
        let taken = unsafe { sys::aes3_lock_push(&mut self.state, word, count, &mut report) };
        (taken, Report::of(&report))
    }

    /// Takes the cells of octets, eight an octet, the first in its highest bit, and gives `tell` each report that they decide.
    pub fn take_octets(&mut self, octets: &[u8], mut tell: impl FnMut(Report)) -> Result<(), Error> {
        let mut first = 0;
        loop {
            let (taken, report) = self.take_octets_once(octets, first);
            first += taken;
            match report {
                Some(report) => tell(report),
                None if first / 8 == octets.len() => return Ok(()),
                None => return Err(Error::Full),
            }
        }
    }

    /// The same from cell number `first` of the octets on, up to the cell that decides a report: how many cells it took, and the
    /// report. Without a report it took all, or it is full.
    pub(crate) fn take_octets_once(&mut self, octets: &[u8], first: usize) -> (usize, Option<Report>) {
        let mut report = nothing();
        // SAFETY: the lock was made by aes3_lock_init, the octets are given with their number, and the report is another place.
        let taken =
            unsafe { sys::aes3_lock_take_octets(&mut self.state, octets.as_ptr(), octets.len(), first, &mut report) };
        if report.kind == sys::AES3_WHOLE {
            // SAFETY: the lock was made by aes3_lock_init, and the words are 384 at another place.
            unsafe { sys::aes3_lock_block(&self.state, report.words.as_mut_ptr()) };
        }
        (taken, Report::of(&report))
    }

    /// What the end of the cells decides. The lock stays as it was.
    pub fn finish(&self) -> Option<Report> {
        let mut report = nothing();
        // SAFETY: the lock was made by aes3_lock_init, and the report is another place.
        unsafe { sys::aes3_lock_finish(&self.state, &mut report) };
        Report::of(&report)
    }
}
