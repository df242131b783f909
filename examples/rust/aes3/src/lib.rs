//! The AES3 / IEC 60958 line codec, over libaes3: a lock that finds the blocks in a line's cells, blocks and their cells, channel status.
//!
//! A cell is half of a time slot. A word of cells is a `u64`, the earliest of its 64 cells in bit 0, 1 for high.
//!
//! ```
//! use aes3::{Block, Lock, Report};
//!
//! let cells = Block::silence().encode(false)?;
//! let mut lock = Lock::new();
//! let mut reports = Vec::new();
//! lock.take(&cells, |report| reports.push(report))?;
//! reports.extend(lock.finish());
//! assert!(matches!(reports[..], [Report::Whole { at: 0, before: false, .. }]));
//! # Ok::<(), aes3::Error>(())
//! ```
//!
//! `Reports` gives the reports of a line that is read from a file or a pipe, [`Account`] the gaps between its whole blocks, and
//! [`Watch`] its events, [`Sums`] what is counted by periods, [`Levels`] the peak and the RMS of whole blocks.
//! [`Wav`] reads and writes the headers of WAV files. [`Recovery`] recovers the cells of a capture that comes in pieces, and
//! [`encode_blocks`] and the like take many blocks at once.
#![cfg_attr(not(feature = "std"), no_std)]
#![warn(missing_docs)]

mod account;
mod block;
mod blocks;
mod capture;
mod error;
mod levels;
mod lock;
#[cfg(feature = "std")]
mod reports;
mod status;
mod sums;
mod watch;
mod wav;
mod words;

pub use account::{Account, Gap};
pub use aes3_sys::{aes3_capture as Capture, aes3_consumer as Consumer, aes3_professional as Professional};
pub use block::{Block, Channel, BLOCK_CELLS, BLOCK_OCTETS, BLOCK_WORDS};
pub use blocks::{
    blocks_of_samples, blocks_of_subframes, encode_blocks, samples_of_blocks, subframes_of_blocks, SampleForm,
    SubframeForm,
};
pub use capture::{cells_of_samples, room_for, Recovery, Unit};
pub use error::Error;
pub use levels::Levels;
pub use lock::{Lock, Report, Why};
#[cfg(feature = "std")]
pub use reports::{Form, Reports};
pub use status::{Check, Status, STATUS_BYTES};
pub use sums::{Sum, Sums};
pub use watch::{Event, Validity, Watch};
pub use wav::{Wav, WavBits, WavFault, WavHeader, WavRead};
pub use words::{library_version, line_of_word, octets_of_word, word_of_octets, word_of_text};
