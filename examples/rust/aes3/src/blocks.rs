use crate::{Block, Error, BLOCK_OCTETS, BLOCK_WORDS};
use aes3_sys as sys;

/// How the words of subframes are in octets, four for each.
#[derive(Clone, Copy, Debug, PartialEq, Eq)]
pub enum SubframeForm {
    /// As in a block file: the lowest octet first, and 0 in bits 0 to 3.
    Own,
    /// ALSA's `IEC958_SUBFRAME_LE`: the same with a code in bits 0 to 3, of preamble Z 8, of X 2, of Y 4.
    Alsa,
    /// AM824 (IEC 61883-6, ST 2110-31): an octet with the bits 0, 0, B, F, P, C, U and V, then 24 bits of audio, the highest octet first.
    Am824,
}

impl SubframeForm {
    fn number(self) -> u8 {
        match self {
            SubframeForm::Own => sys::AES3_SUBFRAMES_OWN,
            SubframeForm::Alsa => sys::AES3_SUBFRAMES_ALSA,
            SubframeForm::Am824 => sys::AES3_SUBFRAMES_AM824,
        }
    }
}

/// How the 24 bits of a sample are in octets, the lowest octet first.
#[derive(Clone, Copy, Debug, PartialEq, Eq)]
pub enum SampleForm {
    /// The highest 24 of 32 bits. The lowest 8 are 0, and make no difference when they are read.
    S32,
    /// Three octets.
    S24,
    /// The lowest 24 of 32 bits. The highest octet is the sign, and makes no difference when it is read.
    S24In32,
    /// The highest 16 bits in two octets. The lowest 8 are dropped, and are 0 when samples are read.
    S16,
}

impl SampleForm {
    /// Octets of a sample: 2, 3 or 4.
    pub const fn octets(self) -> usize {
        match self {
            SampleForm::S32 | SampleForm::S24In32 => 4,
            SampleForm::S24 => 3,
            SampleForm::S16 => 2,
        }
    }

    fn number(self) -> u8 {
        match self {
            SampleForm::S32 => sys::AES3_SAMPLES_S32,
            SampleForm::S24 => sys::AES3_SAMPLES_S24,
            SampleForm::S24In32 => sys::AES3_SAMPLES_S24_IN_32,
            SampleForm::S16 => sys::AES3_SAMPLES_S16,
        }
    }
}

/// Puts the cells of blocks as octets, 3,072 for each block, after a cell of the level `before`. Returns how many blocks it put: those for
/// which there is room.
///
/// A block ends at the level before it, so the next call takes the same `before`. With a last octet, 0, the octets are packed cells.
///
/// ```
/// use aes3::{Block, SampleForm, BLOCK_OCTETS};
///
/// // Samples of 16 bits, two blocks of them, as the octets of a line.
/// let sound: Vec<u8> = (0..2 * 384 * SampleForm::S16.octets()).map(|i| i as u8).collect();
/// let mut blocks = [Block::silence(); 2];
/// assert_eq!(aes3::blocks_of_samples(&sound, SampleForm::S16, &mut blocks), 2);
/// let mut octets = [0; 2 * BLOCK_OCTETS];
/// assert_eq!(aes3::encode_blocks(&blocks, false, &mut octets)?, 2);
/// # Ok::<(), aes3::Error>(())
/// ```
///
/// # Errors
/// [`Error::BadWord`] with the number of the first word that is not valid. The blocks before that word's are put.
pub fn encode_blocks(blocks: &[Block], before: bool, octets: &mut [u8]) -> Result<usize, Error> {
    // SAFETY: blocks are words, and both slices are given with their lengths.
    let answer = unsafe {
        sys::aes3_encode_blocks(words_of(blocks), count_of(blocks), before.into(), octets.as_mut_ptr(), octets.len())
    };
    all_or(answer, blocks.len().min(octets.len() / BLOCK_OCTETS))
}

/// Puts the words of blocks in a form, 1,536 octets for each block. Returns how many blocks it put: those for which there is room.
///
/// ```
/// use aes3::{Block, SubframeForm};
///
/// let mut octets = [0; 1536];
/// assert_eq!(aes3::subframes_of_blocks(&[Block::silence()], SubframeForm::Alsa, &mut octets)?, 1);
/// assert_eq!((octets[0], octets[4], octets[8]), (8, 4, 2)); // preambles Z, Y and X
/// # Ok::<(), aes3::Error>(())
/// ```
///
/// # Errors
/// [`Error::BadWord`] likewise.
pub fn subframes_of_blocks(blocks: &[Block], form: SubframeForm, octets: &mut [u8]) -> Result<usize, Error> {
    // SAFETY: blocks are words, and both slices are given with their lengths.
    let answer = unsafe {
        sys::aes3_subframes_of_blocks(
            words_of(blocks),
            count_of(blocks),
            form.number(),
            octets.as_mut_ptr(),
            octets.len(),
        )
    };
    all_or(answer, blocks.len().min(octets.len() / (4 * BLOCK_WORDS)))
}

/// Reads the blocks that octets in a form have, from the first word of a block on. Returns how many blocks it read: those that are whole,
/// and for which there is room.
///
/// In ALSA's form, words may also have the code 0. A word with the code of another preamble is not valid.
///
/// ```
/// use aes3::{Block, Error, SubframeForm};
///
/// let mut octets = [0; 1536];
/// aes3::subframes_of_blocks(&[Block::silence()], SubframeForm::Am824, &mut octets)?;
/// let mut blocks = [Block::silence()];
/// assert_eq!(aes3::blocks_of_subframes(&octets, SubframeForm::Am824, &mut blocks)?, 1);
/// octets[0] = 0x10; // the first word has the code of preamble X
/// let error = aes3::blocks_of_subframes(&octets, SubframeForm::Am824, &mut blocks);
/// assert_eq!(error, Err(Error::BadWord { word: 0 }));
/// # Ok::<(), Error>(())
/// ```
///
/// # Errors
/// [`Error::BadWord`] likewise.
pub fn blocks_of_subframes(octets: &[u8], form: SubframeForm, blocks: &mut [Block]) -> Result<usize, Error> {
    let room = count_of(blocks);
    // SAFETY: blocks are words, and both slices are given with their lengths.
    let answer = unsafe {
        sys::aes3_blocks_of_subframes(octets.as_ptr(), octets.len(), form.number(), blocks.as_mut_ptr().cast(), room)
    };
    all_or(answer, blocks.len().min(octets.len() / (4 * BLOCK_WORDS)))
}

/// Puts the samples of blocks in a form, channel 1 and then channel 2 of each frame. Returns how many blocks it put: those for which there
/// is room.
///
/// # Errors
/// [`Error::BadWord`] likewise.
pub fn samples_of_blocks(blocks: &[Block], form: SampleForm, octets: &mut [u8]) -> Result<usize, Error> {
    // SAFETY: blocks are words, and both slices are given with their lengths.
    let answer = unsafe {
        sys::aes3_samples_of_blocks(
            words_of(blocks),
            count_of(blocks),
            form.number(),
            octets.as_mut_ptr(),
            octets.len(),
        )
    };
    all_or(answer, blocks.len().min(octets.len() / (form.octets() * BLOCK_WORDS)))
}

/// Makes blocks of samples in a form, channel 1 and then channel 2 of each frame. V, U and C are 0. Returns how many blocks it made: those
/// for which there are samples and room.
///
/// ```
/// use aes3::{Block, Channel, SampleForm};
///
/// let mut octets = [0; 3 * 384];
/// octets[..3].copy_from_slice(&[0x56, 0x34, 0x12]);
/// let mut blocks = [Block::silence()];
/// assert_eq!(aes3::blocks_of_samples(&octets, SampleForm::S24, &mut blocks), 1);
/// assert_eq!(blocks[0].sample(0, Channel::One), 0x12345600);
/// let mut again = [1; 3 * 384];
/// assert_eq!(aes3::samples_of_blocks(&blocks, SampleForm::S24, &mut again)?, 1);
/// assert_eq!(again, octets);
/// # Ok::<(), aes3::Error>(())
/// ```
pub fn blocks_of_samples(octets: &[u8], form: SampleForm, blocks: &mut [Block]) -> usize {
    let room = count_of(blocks);
    // SAFETY: blocks are words, and both slices are given with their lengths.
    let answer = unsafe {
        sys::aes3_blocks_of_samples(octets.as_ptr(), octets.len(), form.number(), blocks.as_mut_ptr().cast(), room)
    };
    answer / BLOCK_WORDS
}

/// The words of blocks, one after the other.
fn words_of(blocks: &[Block]) -> *const u32 {
    blocks.as_ptr().cast()
}

/// How many words blocks have.
fn count_of(blocks: &[Block]) -> usize {
    BLOCK_WORDS * blocks.len()
}

/// That many blocks, if all of their words are valid.
fn all_or(answer: usize, blocks: usize) -> Result<usize, Error> {
    if answer == BLOCK_WORDS * blocks {
        Ok(blocks)
    } else {
        Err(Error::BadWord { word: answer })
    }
}
