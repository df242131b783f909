use crate::{Channel, Report, Status};
use aes3_sys as sys;
use core::{fmt, mem::MaybeUninit};

/// What the 192 validity bits of a channel in a block are. Its text is the word of `aes3 watch`.
#[derive(Clone, Copy, Debug, PartialEq, Eq)]
pub enum Validity {
    /// All are 0: the samples may be converted to analogue.
    Clear,
    /// All are 1.
    Set,
    /// Some are 0, some are 1.
    Mixed,
}

impl fmt::Display for Validity {
    fn fmt(&self, to: &mut fmt::Formatter<'_>) -> fmt::Result {
        to.write_str(match self {
            Validity::Clear => "clear",
            Validity::Set => "set",
            Validity::Mixed => "mixed",
        })
    }
}

/// What changes on a line, and where. Places are counted from the lock's first cell. Its text is the line of `aes3 watch`.
#[derive(Clone, Copy, Debug, PartialEq, Eq)]
pub enum Event {
    /// The first whole block.
    Locked {
        /// The place of its first cell.
        at: u64,
        /// The level of the cell before it.
        before: bool,
    },
    /// 24,576 cells or more are in no whole block.
    Lost {
        /// The place of the first of them.
        at: u64,
    },
    /// The first whole block after lost cells.
    Back {
        /// The place of its first cell.
        at: u64,
        /// How many cells were lost.
        lost: u64,
    },
    /// A whole block after fewer than 24,576 cells that are in none.
    Slipped {
        /// The place of its first cell.
        at: u64,
        /// How many cells are between it and the whole block before it.
        cells: u64,
    },
    /// A whole block with another channel status than the one before it.
    Status {
        /// The place of its first cell.
        at: u64,
        /// The channel.
        channel: Channel,
        /// The new status.
        status: Status,
    },
    /// A whole block with other validity bits than the one before it.
    Validity {
        /// The place of its first cell.
        at: u64,
        /// The channel.
        channel: Channel,
        /// What they are.
        validity: Validity,
    },
    /// The cells end.
    End {
        /// How many cells there are.
        at: u64,
        /// Whether the last whole block is followed by fewer than 24,576 cells.
        locked: bool,
    },
}

/// As a line of `aes3 watch`.
impl fmt::Display for Event {
    fn fmt(&self, to: &mut fmt::Formatter<'_>) -> fmt::Result {
        match self {
            Event::Locked { at, before } => write!(to, "locked at {at} before {}", u8::from(*before)),
            Event::Lost { at } => write!(to, "lost at {at}"),
            Event::Back { at, lost } => write!(to, "back at {at} lost {lost}"),
            Event::Slipped { at, cells } => write!(to, "slipped at {at} cells {cells}"),
            Event::Status { at, channel, status } => {
                write!(to, "status at {at} channel {} ", *channel as u8)?;
                status.bytes.iter().try_for_each(|byte| write!(to, "{byte:02x}"))
            }
            Event::Validity { at, channel, validity } => {
                write!(to, "validity at {at} channel {} {validity}", *channel as u8)
            }
            Event::End { at, locked } => write!(to, "end at {at} {}", if *locked { "locked" } else { "lost" }),
        }
    }
}

/// Gives the events of a lock's cells: where the line locks, is lost, comes back or slips, and where its channel status or its
/// validity bits change. A clone goes on from there by itself.
///
/// ```
/// use aes3::{encode_blocks, Block, Form, Reports, Watch, BLOCK_OCTETS};
///
/// // A block, and 40 cells without signal.
/// let mut line = vec![0xff; BLOCK_OCTETS + 5];
/// encode_blocks(&[Block::silence()], false, &mut line)?;
/// let mut lines = Vec::new();
/// let (mut watch, mut reports) = (Watch::new(), Reports::new(&line[..], Form::Raw));
/// while let Some(report) = reports.next() {
///     watch.report(&report?, |event| lines.push(event.to_string()));
///     watch.passed(reports.seen(), |event| lines.push(event.to_string()));
/// }
/// watch.end(reports.seen(), |event| lines.push(event.to_string()));
/// assert_eq!(lines, ["locked at 0 before 0", "end at 24616 locked"]);
/// # Ok::<(), Box<dyn std::error::Error>>(())
/// ```
#[derive(Clone)]
pub struct Watch {
    state: sys::aes3_watch,
}

impl Default for Watch {
    fn default() -> Watch {
        Watch::new()
    }
}

impl fmt::Debug for Watch {
    fn fmt(&self, to: &mut fmt::Formatter<'_>) -> fmt::Result {
        to.debug_struct("Watch").finish_non_exhaustive()
    }
}

impl Watch {
    /// The state of a line for a lock that has seen no cell.
    pub fn new() -> Watch {
        let mut state = MaybeUninit::<sys::aes3_watch>::zeroed();
        // SAFETY: the call makes a state, and memory of zeros is one too.
        let state = unsafe {
            sys::aes3_watch_init(state.as_mut_ptr());
            state.assume_init()
        };
        Watch { state }
    }

    /// Gives `tell` the events of a report. Each report of the lock goes here once, in turn.
    pub fn report(&mut self, report: &Report, tell: impl FnMut(Event)) {
        let mut told = report.told();
        if let Report::Whole { block, .. } = report {
            told.words = block.words;
        }
        // SAFETY: the state was made by aes3_watch_init, and the report and the events are other places.
        tell_all(|events| unsafe { sys::aes3_watch_report(&mut self.state, &told, events) }, tell);
    }

    /// Gives `tell` the loss that no cell after the `seen` ones changes, if there is one. All reports on these were given.
    pub fn passed(&mut self, seen: u64, tell: impl FnMut(Event)) {
        // SAFETY: the state was made by aes3_watch_init, and the events are another place.
        tell_all(|events| unsafe { sys::aes3_watch_passed(&mut self.state, seen, events) }, tell);
    }

    /// Gives `tell` the events of the end of the `seen` cells. All reports on them were given.
    pub fn end(&self, seen: u64, tell: impl FnMut(Event)) {
        // SAFETY: the state was made by aes3_watch_init, and the events are another place.
        tell_all(|events| unsafe { sys::aes3_watch_end(&self.state, seen, events) }, tell);
    }
}

/// Gives `tell` the events that a call puts, with room for `AES3_EVENTS` of them.
fn tell_all(put: impl FnOnce(*mut sys::aes3_event) -> u32, tell: impl FnMut(Event)) {
    let mut events = [sys::aes3_event::default(); sys::AES3_EVENTS];
    let count = put(events.as_mut_ptr()) as usize;
    events.iter().take(count).filter_map(Event::of).for_each(tell);
}

impl Event {
    /// The event of what a call puts.
    fn of(put: &sys::aes3_event) -> Option<Event> {
        let sys::aes3_event { at, cells, status, .. } = *put;
        let channel = if put.channel == 1 { Channel::One } else { Channel::Two };
        match put.kind {
            sys::AES3_EVENT_LOCKED => Some(Event::Locked { at, before: put.before != 0 }),
            sys::AES3_EVENT_LOST => Some(Event::Lost { at }),
            sys::AES3_EVENT_BACK => Some(Event::Back { at, lost: cells }),
            sys::AES3_EVENT_SLIPPED => Some(Event::Slipped { at, cells }),
            sys::AES3_EVENT_STATUS => Some(Event::Status { at, channel, status: Status { bytes: status } }),
            sys::AES3_EVENT_VALIDITY => {
                let validity = match put.validity {
                    sys::AES3_VALIDITY_CLEAR => Validity::Clear,
                    sys::AES3_VALIDITY_SET => Validity::Set,
                    _ => Validity::Mixed,
                };
                Some(Event::Validity { at, channel, validity })
            }
            sys::AES3_EVENT_END => Some(Event::End { at, locked: put.locked != 0 }),
            _ => None,
        }
    }
}
