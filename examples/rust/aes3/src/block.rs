use crate::{Error, Status, STATUS_BYTES};
use aes3_sys as sys;
use core::fmt;

/// Words of a block.
pub const BLOCK_WORDS: usize = sys::AES3_BLOCK_WORDS;
/// Cells of a block.
pub const BLOCK_CELLS: usize = sys::AES3_BLOCK_CELLS;
/// Octets of the cells of a block.
pub const BLOCK_OCTETS: usize = sys::AES3_BLOCK_OCTETS;

/// One of the two channels of a line. Its text is its number.
#[derive(Clone, Copy, Debug, PartialEq, Eq)]
pub enum Channel {
    /// Channel 1, whose subframe begins a frame.
    One = 1,
    /// Channel 2.
    Two = 2,
}

impl fmt::Display for Channel {
    fn fmt(&self, to: &mut fmt::Formatter<'_>) -> fmt::Result {
        write!(to, "{}", *self as u8)
    }
}

/// A block: 384 words as in a block file, a word a subframe, channel 1 first.
///
/// Bits 4 to 27 of a word are the sample, 28 to 30 V, U and C. Bit 31 makes the number of ones in bits 4 to 31 even.
///
/// ```
/// use aes3::{Block, Channel, Lock, Report};
///
/// // A block of samples, sent and found again.
/// let samples = [0x0123_4500; 384];
/// let cells = Block::of_samples(&samples).encode(false)?;
/// let mut lock = Lock::new();
/// lock.take(&cells, |_| ())?;
/// match lock.finish() {
///     Some(Report::Whole { block, .. }) => assert_eq!(block.samples()?, samples),
///     other => panic!("{other:?}"),
/// }
/// # Ok::<(), aes3::Error>(())
/// ```
#[derive(Clone, Copy, Debug, PartialEq, Eq)]
#[repr(transparent)]
pub struct Block {
    /// The words, valid or not.
    pub words: [u32; BLOCK_WORDS],
}

impl Block {
    /// A block whose samples and bits are all 0.
    pub fn silence() -> Block {
        Block { words: [0; BLOCK_WORDS] }
    }

    /// The block of samples, channel 1 and then channel 2 of each frame: the highest 24 bits of each. V, U and C are 0.
    pub fn of_samples(samples: &[i32; BLOCK_WORDS]) -> Block {
        let mut block = Block::silence();
        // SAFETY: both point to 384 items that don't overlap.
        unsafe { sys::aes3_block_of_samples(samples.as_ptr(), block.words.as_mut_ptr()) };
        block
    }

    /// All samples, channel 1 and then channel 2 of each frame, in the highest 24 bits of each.
    pub fn samples(&self) -> Result<[i32; BLOCK_WORDS], Error> {
        let mut samples = [0; BLOCK_WORDS];
        // SAFETY: both point to 384 items that don't overlap.
        let answer = unsafe { sys::aes3_block_samples(self.words.as_ptr(), samples.as_mut_ptr()) };
        valid_or(answer, samples)
    }

    /// The sample of a channel in a frame, 0 to 191, in the highest 24 bits of an `i32`.
    pub fn sample(&self, frame: usize, channel: Channel) -> i32 {
        (self.words[2 * frame + channel as usize - 1] << 4) as i32 & !0xff
    }

    /// The block's cells after a cell of the level `before`. It ends at that level, so that blocks follow one another with the same.
    pub fn encode(&self, before: bool) -> Result<[u64; BLOCK_WORDS], Error> {
        let mut cells = [0; BLOCK_WORDS];
        // SAFETY: both point to 384 words that don't overlap.
        let answer = unsafe { sys::aes3_encode_block(self.words.as_ptr(), before.into(), cells.as_mut_ptr()) };
        valid_or(answer, cells)
    }

    /// The channel status of a channel.
    pub fn status(&self, channel: Channel) -> Result<Status, Error> {
        let mut bytes = [0; STATUS_BYTES];
        // SAFETY: the words are 384, the bytes 24, and they don't overlap.
        let answer = unsafe { sys::aes3_block_status(self.words.as_ptr(), channel as u8, bytes.as_mut_ptr()) };
        valid_or(answer, Status { bytes })
    }

    /// The V bits of a channel: bit `i % 8` of byte `i / 8` is that of frame `i`.
    pub fn validity(&self, channel: Channel) -> Result<[u8; STATUS_BYTES], Error> {
        let mut bits = [0; STATUS_BYTES];
        // SAFETY: the words are 384, the bytes 24, and they don't overlap.
        let answer = unsafe { sys::aes3_block_validity(self.words.as_ptr(), channel as u8, bits.as_mut_ptr()) };
        valid_or(answer, bits)
    }

    /// The U bits of a channel, likewise.
    pub fn user(&self, channel: Channel) -> Result<[u8; STATUS_BYTES], Error> {
        let mut bits = [0; STATUS_BYTES];
        // SAFETY: the words are 384, the bytes 24, and they don't overlap.
        let answer = unsafe { sys::aes3_block_user(self.words.as_ptr(), channel as u8, bits.as_mut_ptr()) };
        valid_or(answer, bits)
    }

    /// Sets the channel status of a channel, and the parity bits that follow.
    pub fn set_status(&mut self, channel: Channel, status: &Status) -> Result<(), Error> {
        // SAFETY: the words are 384, the bytes 24, and they don't overlap.
        let answer =
            unsafe { sys::aes3_block_set_status(self.words.as_mut_ptr(), channel as u8, status.bytes.as_ptr()) };
        valid_or(answer, ())
    }

    /// Sets the V bits of a channel, and the parity bits that follow.
    pub fn set_validity(&mut self, channel: Channel, bits: &[u8; STATUS_BYTES]) -> Result<(), Error> {
        // SAFETY: the words are 384, the bytes 24, and they don't overlap.
        let answer = unsafe { sys::aes3_block_set_validity(self.words.as_mut_ptr(), channel as u8, bits.as_ptr()) };
        valid_or(answer, ())
    }

    /// Sets the U bits of a channel, and the parity bits that follow.
    pub fn set_user(&mut self, channel: Channel, bits: &[u8; STATUS_BYTES]) -> Result<(), Error> {
        // SAFETY: the words are 384, the bytes 24, and they don't overlap.
        let answer = unsafe { sys::aes3_block_set_user(self.words.as_mut_ptr(), channel as u8, bits.as_ptr()) };
        valid_or(answer, ())
    }
}

/// What a call made, if it found 384 valid words.
fn valid_or<T>(answer: u32, made: T) -> Result<T, Error> {
    match answer as usize {
        BLOCK_WORDS => Ok(made),
        word => Err(Error::BadWord { word }),
    }
}
