use crate::Report;
use aes3_sys as sys;
use core::{fmt, mem::MaybeUninit};

/// What is counted in a period of a line. Its text is the line of `aes3 watch --every`.
///
/// A block is counted where it begins. A gap of 24,576 cells is counted where its last cell is, a shorter one where the whole
/// block after it begins.
#[derive(Clone, Copy, Debug, Default, PartialEq, Eq)]
pub struct Sum {
    /// The place of the period's first cell, counted from the lock's first.
    pub from: u64,
    /// The place of the cell after its last one.
    pub to: u64,
    /// Whole blocks.
    pub whole: u64,
    /// Marked blocks.
    pub marked: u64,
    /// Faults of all three causes.
    pub fault: u64,
    /// Faults by a preamble.
    pub preamble: u64,
    /// Faults by a time slot that does not begin with a change of level.
    pub biphase: u64,
    /// Faults by the cell after a block's last.
    pub unclosed: u64,
    /// Cells in gaps that count as faults.
    pub lost: u64,
    /// Validity bits of 1 in whole blocks, of each channel.
    pub invalid: [u64; 2],
    /// Events of another status or other validity bits.
    pub changes: u64,
}

/// As a line of `aes3 watch --every`.
impl fmt::Display for Sum {
    fn fmt(&self, to: &mut fmt::Formatter<'_>) -> fmt::Result {
        write!(to, "sum from {} to {} whole {} marked {}", self.from, self.to, self.whole, self.marked)?;
        write!(to, " fault {} preamble {}", self.fault, self.preamble)?;
        write!(to, " biphase {} unclosed {} lost {}", self.biphase, self.unclosed, self.lost)?;
        write!(to, " invalid1 {} invalid2 {} changes {}", self.invalid[0], self.invalid[1], self.changes)
    }
}

/// Gives the sums of a lock's cells by periods: what is counted in the first cells, as many as a period has, in the next ones,
/// and so on. A clone goes on from there by itself.
///
/// ```
/// use aes3::{encode_blocks, Block, Form, Reports, Sums, BLOCK_OCTETS};
///
/// // A block, and 40 cells without signal.
/// let mut line = vec![0xff; BLOCK_OCTETS + 5];
/// encode_blocks(&[Block::silence()], false, &mut line)?;
/// let mut lines = Vec::new();
/// let (mut sums, mut reports) = (Sums::new(20_000).unwrap(), Reports::new(&line[..], Form::Raw));
/// while let Some(report) = reports.next() {
///     sums.report(&report?, |sum| lines.push(sum));
///     sums.passed(reports.seen(), |sum| lines.push(sum));
/// }
/// sums.end(reports.seen(), |sum| lines.push(sum));
/// assert_eq!(lines.iter().map(|sum| (sum.from, sum.to, sum.whole)).collect::<Vec<_>>(), [(0, 20_000, 1), (20_000, 24_616, 0)]);
/// # Ok::<(), Box<dyn std::error::Error>>(())
/// ```
#[derive(Clone)]
pub struct Sums {
    state: sys::aes3_sums,
}

impl fmt::Debug for Sums {
    fn fmt(&self, to: &mut fmt::Formatter<'_>) -> fmt::Result {
        to.debug_struct("Sums").finish_non_exhaustive()
    }
}

impl Sums {
    /// The state of a line for a lock that has seen no cell, with periods of `every` cells: `None` if that is 0 or above 2^40.
    pub fn new(every: u64) -> Option<Sums> {
        let mut state = MaybeUninit::<sys::aes3_sums>::zeroed();
        // SAFETY: the call makes a state, and memory of zeros is one too.
        let (made, state) = unsafe { (sys::aes3_sums_init(state.as_mut_ptr(), every), state.assume_init()) };
        made.then_some(Sums { state })
    }

    /// Gives `tell` the sums of the periods that end before a report. Each report of the lock goes here once, in turn.
    pub fn report(&mut self, report: &Report, mut tell: impl FnMut(Sum)) {
        let mut told = report.told();
        if let Report::Whole { block, .. } = report {
            told.words = block.words;
        }
        // SAFETY: the state was made by aes3_sums_init, and the report and the sum are other places.
        while let Some(sum) = Sum::of(|sum| unsafe { sys::aes3_sums_before(&mut self.state, &told, sum) }) {
            tell(sum);
        }
    }

    /// Gives `tell` the sums that no cell after the `seen` ones changes. All reports on these were given.
    pub fn passed(&mut self, seen: u64, mut tell: impl FnMut(Sum)) {
        // SAFETY: the state was made by aes3_sums_init, and the sum is another place.
        while let Some(sum) = Sum::of(|sum| unsafe { sys::aes3_sums_passed(&mut self.state, seen, sum) }) {
            tell(sum);
        }
    }

    /// Gives `tell` all sums that are left at the end of the `seen` cells. All reports on them were given. The last period can be
    /// shorter.
    pub fn end(&mut self, seen: u64, mut tell: impl FnMut(Sum)) {
        // SAFETY: the state was made by aes3_sums_init, and the sum is another place.
        while let Some(sum) = Sum::of(|sum| unsafe { sys::aes3_sums_end(&mut self.state, seen, sum) }) {
            tell(sum);
        }
    }
}

impl Sum {
    /// The sum that a call puts, if it answers that it did.
    fn of(put: impl FnOnce(&mut sys::aes3_sum) -> bool) -> Option<Sum> {
        let mut sum = sys::aes3_sum::default();
        put(&mut sum).then_some(Sum {
            from: sum.from,
            to: sum.to,
            whole: sum.whole,
            marked: sum.marked,
            fault: sum.fault,
            preamble: sum.preamble,
            biphase: sum.biphase,
            unclosed: sum.unclosed,
            lost: sum.lost,
            invalid: [sum.invalid_first, sum.invalid_second],
            changes: sum.changes,
        })
    }
}
