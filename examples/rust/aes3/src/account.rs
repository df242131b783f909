use crate::Report;
use aes3_sys as sys;
use core::{fmt, mem::MaybeUninit};

/// A gap: cells in a row that are in no whole block. Its text is the line of `aes3 check --gaps`.
#[derive(Clone, Copy, Debug, PartialEq, Eq)]
pub struct Gap {
    /// The place of its first cell, counted from the lock's first.
    pub at: u64,
    /// How many cells it has, 1 to 24,576.
    pub cells: u64,
    /// Whether it counts among the faults. If not, the cells are cut there.
    pub counts: bool,
}

/// As a line of `aes3 check --gaps`.
impl fmt::Display for Gap {
    fn fmt(&self, to: &mut fmt::Formatter<'_>) -> fmt::Result {
        write!(to, "gap at {} cells {}", self.at, self.cells)
    }
}

/// Gives the gaps between the whole blocks of a lock's cells. A clone goes on from there by itself.
///
/// ```
/// use aes3::{Account, Form, Reports};
///
/// // 800 cells without signal.
/// let line = [0; 100];
/// let mut lines = Vec::new();
/// let (mut account, mut reports) = (Account::new(), Reports::new(&line[..], Form::Raw));
/// while let Some(report) = reports.next() {
///     let report = report?;
///     account.before(&report, |gap| lines.push(gap.to_string()));
///     lines.push(report.to_string());
/// }
/// account.end(reports.seen(), |gap| lines.push(gap.to_string()));
/// assert_eq!(lines, ["gap at 0 cells 800"]);
/// # Ok::<(), std::io::Error>(())
/// ```
#[derive(Clone)]
pub struct Account {
    state: sys::aes3_account,
}

impl Default for Account {
    fn default() -> Account {
        Account::new()
    }
}

impl fmt::Debug for Account {
    fn fmt(&self, to: &mut fmt::Formatter<'_>) -> fmt::Result {
        to.debug_struct("Account").finish_non_exhaustive()
    }
}

impl Account {
    /// An account for a lock that has seen no cell.
    pub fn new() -> Account {
        let mut state = MaybeUninit::<sys::aes3_account>::zeroed();
        // SAFETY: the call makes an account, and memory of zeros is one too.
        let state = unsafe {
            sys::aes3_account_init(state.as_mut_ptr());
            state.assume_init()
        };
        Account { state }
    }

    /// Gives `tell` the gaps before a report. Each report of the lock goes here in turn, and is counted then.
    pub fn before(&mut self, report: &Report, mut tell: impl FnMut(Gap)) {
        let told = report.told();
        // SAFETY: the account was made by aes3_account_init, and the report and the gap are other places.
        while let Some(gap) = Gap::of(|gap| unsafe { sys::aes3_account_before(&mut self.state, &told, gap) }) {
            tell(gap);
        }
    }

    /// Gives `tell` the gaps that no cell after the `seen` ones changes. All reports on these were given.
    pub fn passed(&mut self, seen: u64, mut tell: impl FnMut(Gap)) {
        // SAFETY: the account was made by aes3_account_init, and the gap is another place.
        while let Some(gap) = Gap::of(|gap| unsafe { sys::aes3_account_passed(&mut self.state, seen, gap) }) {
            tell(gap);
        }
    }

    /// Gives `tell` all gaps that are left at the end of the `seen` cells. All reports on them were given.
    pub fn end(&mut self, seen: u64, mut tell: impl FnMut(Gap)) {
        // SAFETY: the account was made by aes3_account_init, and the gap is another place.
        while let Some(gap) = Gap::of(|gap| unsafe { sys::aes3_account_end(&mut self.state, seen, gap) }) {
            tell(gap);
        }
    }
}

impl Gap {
    /// The gap that a call puts, if it answers that it did.
    fn of(put: impl FnOnce(&mut sys::aes3_gap) -> bool) -> Option<Gap> {
        let mut gap = sys::aes3_gap { at: 0, cells: 0, counts: 0 };
        put(&mut gap).then_some(Gap { at: gap.at, cells: gap.cells, counts: gap.counts != 0 })
    }
}
