use crate::{Block, Channel};
use aes3_sys as sys;
use core::mem::MaybeUninit;

/// Counts the samples of each channel of whole blocks. Their levels are those that `aes3 info` prints.
///
/// ```
/// use aes3::{Block, Channel, Levels};
///
/// let mut levels = Levels::new();
/// levels.add(&Block::silence());
/// assert_eq!((levels.blocks(), levels.greatest(Channel::One), levels.peak(Channel::One)), (1, 0, None));
/// ```
#[derive(Clone, Debug)]
pub struct Levels {
    state: sys::aes3_levels,
}

impl Default for Levels {
    fn default() -> Levels {
        Levels::new()
    }
}

impl Levels {
    /// The counts without any block.
    pub fn new() -> Levels {
        let mut state = MaybeUninit::<sys::aes3_levels>::zeroed();
        // SAFETY: the call makes the counts, and memory of zeros is some too.
        let state = unsafe {
            sys::aes3_levels_init(state.as_mut_ptr());
            state.assume_init()
        };
        Levels { state }
    }

    /// Counts the samples of a block.
    pub fn add(&mut self, block: &Block) {
        // SAFETY: the words are those of a block, and the counts are another place.
        unsafe { sys::aes3_levels_add(&mut self.state, block.words.as_ptr()) }
    }

    /// How many blocks were added.
    pub fn blocks(&self) -> u64 {
        self.state.blocks
    }

    /// The greatest magnitude of a sample of a channel, 8,388,608 at most.
    pub fn greatest(&self, channel: Channel) -> u32 {
        match channel {
            Channel::One => self.state.first.peak,
            Channel::Two => self.state.second.peak,
        }
    }

    /// The peak of a channel, in tenths of a decibel below full scale; `None` if all its samples are 0.
    pub fn peak(&self, channel: Channel) -> Option<u32> {
        // SAFETY: the call only reads the counts.
        some(unsafe { sys::aes3_levels_peak(&self.state, channel as u8) })
    }

    /// The RMS of a channel likewise.
    pub fn rms(&self, channel: Channel) -> Option<u32> {
        // SAFETY: the call only reads the counts.
        some(unsafe { sys::aes3_levels_rms(&self.state, channel as u8) })
    }
}

fn some(level: u32) -> Option<u32> {
    (level != sys::AES3_NO_LEVEL).then_some(level)
}
