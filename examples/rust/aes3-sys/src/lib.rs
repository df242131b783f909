//! The calls of `aes3.h`, as they are. The header says what a caller has to keep to. The crate `aes3` has the same calls as
//! safe Rust.
#![no_std]
#![allow(non_camel_case_types)]
#![warn(missing_docs)]

/// Words of a block, and words of its cells.
pub const AES3_BLOCK_WORDS: usize = 384;
/// Cells of a block.
pub const AES3_BLOCK_CELLS: usize = 24576;
/// Octets of the cells of a block.
pub const AES3_BLOCK_OCTETS: usize = 3072;
/// Bytes of a channel status.
pub const AES3_STATUS_BYTES: usize = 24;
/// Characters of the text of a channel status, at most.
pub const AES3_STATUS_TEXT: usize = 800;
/// Events that a call puts, at most.
pub const AES3_EVENTS: usize = 6;
/// What a call returns if the channel is neither 1 nor 2.
pub const AES3_NO_CHANNEL: u32 = 385;

/// Words as in a block file.
pub const AES3_SUBFRAMES_OWN: u8 = 0;
/// Words as ALSA's `IEC958_SUBFRAME_LE`.
pub const AES3_SUBFRAMES_ALSA: u8 = 1;
/// Words as AM824.
pub const AES3_SUBFRAMES_AM824: u8 = 2;

/// Samples in the highest 24 of 32 bits.
pub const AES3_SAMPLES_S32: u8 = 0;
/// Samples in three octets.
pub const AES3_SAMPLES_S24: u8 = 1;
/// Samples in the lowest 24 of 32 bits.
pub const AES3_SAMPLES_S24_IN_32: u8 = 2;
/// Samples of 16 bits.
pub const AES3_SAMPLES_S16: u8 = 3;

/// A lock, in memory of its caller.
#[repr(C)]
#[derive(Clone, Copy)]
pub struct aes3_lock {
    /// Opaque: only the calls write it.
    pub state: [u64; 388],
}

/// `kind`: no report.
pub const AES3_NONE: u8 = 0;
/// `kind`: a whole block, with all parity bits right: `at`, `before`, `words`.
pub const AES3_WHOLE: u8 = 1;
/// `kind`: a whole block with wrong parity bits: `at`, `before`, `wrong`.
pub const AES3_MARKED: u8 = 2;
/// `kind`: no block: `at`, `cell`, `why`.
pub const AES3_FAULT: u8 = 3;
/// `kind`: a block that the end of the cells cuts: `at`, `cell`.
pub const AES3_UNFINISHED: u8 = 4;

/// `why`: the preamble of the subframe has the other level there.
pub const AES3_PREAMBLE: u8 = 0;
/// `why`: a time slot does not begin with a change of level.
pub const AES3_BIPHASE: u8 = 1;
/// `why`: the cell after a block's last does not change the level.
pub const AES3_UNCLOSED: u8 = 2;

/// A report on a place where the preamble of a block is.
#[repr(C)]
#[derive(Clone, Copy)]
pub struct aes3_report {
    /// Place of the block's first cell, counted from the lock's first.
    pub at: u64,
    /// Of a fault the place of the wrong cell; of an unfinished block its number of cells.
    pub cell: u64,
    /// The words of a whole block.
    pub words: [u32; AES3_BLOCK_WORDS],
    /// How many subframes of a marked block have a wrong parity bit, 1 to 384.
    pub wrong: u16,
    /// `AES3_NONE` to `AES3_UNFINISHED`.
    pub kind: u8,
    /// The level before the block's first cell.
    pub before: u8,
    /// `AES3_PREAMBLE` to `AES3_UNCLOSED`.
    pub why: u8,
}

/// Which reports and gaps of a lock's cells were given, in memory of its caller.
#[repr(C)]
#[derive(Clone, Copy)]
pub struct aes3_account {
    /// Opaque: only the calls write it.
    pub state: [u64; 2],
}

/// A gap: cells in a row that are in no whole block.
#[repr(C)]
#[derive(Clone, Copy)]
pub struct aes3_gap {
    /// Place of its first cell, counted from the lock's first.
    pub at: u64,
    /// How many cells it has, 1 to 24,576.
    pub cells: u64,
    /// 1 if it counts among the faults, else 0.
    pub counts: u8,
}

/// The state of a line that is watched, in memory of its caller.
#[repr(C)]
#[derive(Clone, Copy)]
pub struct aes3_watch {
    /// Opaque: only the calls write it.
    pub state: [u64; 10],
}

/// `kind`: the first whole block: `at`, `before`.
pub const AES3_EVENT_LOCKED: u8 = 1;
/// `kind`: 24,576 cells or more are in no whole block: `at`.
pub const AES3_EVENT_LOST: u8 = 2;
/// `kind`: the first whole block after lost cells: `at`, `cells`.
pub const AES3_EVENT_BACK: u8 = 3;
/// `kind`: a whole block after fewer than 24,576 cells that are in none: `at`, `cells`.
pub const AES3_EVENT_SLIPPED: u8 = 4;
/// `kind`: a whole block with another channel status than the one before it: `at`, `channel`, `status`.
pub const AES3_EVENT_STATUS: u8 = 5;
/// `kind`: one with other validity bits than the one before it: `at`, `channel`, `validity`.
pub const AES3_EVENT_VALIDITY: u8 = 6;
/// `kind`: the cells end: `at`, `locked`.
pub const AES3_EVENT_END: u8 = 7;

/// `validity`: all bits are 0.
pub const AES3_VALIDITY_CLEAR: u8 = 0;
/// `validity`: all bits are 1.
pub const AES3_VALIDITY_SET: u8 = 1;
/// `validity`: some bits are 0, some are 1.
pub const AES3_VALIDITY_MIXED: u8 = 2;

/// What changes on a line, and where. A field that its kind does not name is 0.
#[repr(C)]
#[derive(Clone, Copy, Debug, Default, PartialEq, Eq)]
pub struct aes3_event {
    /// Place: where cells are lost, of the first of them; at the end, the number of cells; else that of the block's first cell.
    pub at: u64,
    /// Where the line comes back, how many cells were lost; where it slips, how many are between the blocks.
    pub cells: u64,
    /// The new channel status.
    pub status: [u8; AES3_STATUS_BYTES],
    /// `AES3_EVENT_LOCKED` to `AES3_EVENT_END`.
    pub kind: u8,
    /// 1 or 2.
    pub channel: u8,
    /// The level before the block's first cell.
    pub before: u8,
    /// `AES3_VALIDITY_CLEAR` to `AES3_VALIDITY_MIXED`.
    pub validity: u8,
    /// 1 if the last whole block is followed by fewer than 24,576 cells, else 0.
    pub locked: u8,
}

/// What is counted of a channel's samples of 24 bits.
#[repr(C)]
#[derive(Clone, Copy, Debug, Default, PartialEq, Eq)]
pub struct aes3_channel_levels {
    /// The sum of the squares of the samples: its low 64 bits.
    pub energy_low: u64,
    /// Its high 64 bits.
    pub energy_high: u64,
    /// The greatest magnitude of a sample.
    pub peak: u32,
}

/// What is counted of the samples of blocks.
#[repr(C)]
#[derive(Clone, Copy, Debug, Default, PartialEq, Eq)]
pub struct aes3_levels {
    /// How many blocks were added.
    pub blocks: u64,
    /// Channel 1.
    pub first: aes3_channel_levels,
    /// Channel 2.
    pub second: aes3_channel_levels,
}

/// The level if there is none.
pub const AES3_NO_LEVEL: u32 = u32::MAX;

/// The state of a line whose sums are given, in memory of its caller.
#[repr(C)]
#[derive(Clone, Copy)]
pub struct aes3_sums {
    /// Opaque: only the calls write it.
    pub state: [u64; 24],
}

/// What is counted in a period.
#[repr(C)]
#[derive(Clone, Copy, Default)]
pub struct aes3_sum {
    /// Place of the period's first cell.
    pub from: u64,
    /// Place of the cell after its last one.
    pub to: u64,
    /// Whole blocks.
    pub whole: u64,
    /// Marked blocks.
    pub marked: u64,
    /// Faults of all three causes.
    pub fault: u64,
    /// Faults by a preamble.
    pub preamble: u64,
    /// Faults by a time slot that does not begin with a change of level.
    pub biphase: u64,
    /// Faults by the cell after a block's last.
    pub unclosed: u64,
    /// Cells in gaps that count as faults.
    pub lost: u64,
    /// Validity bits of 1 of channel 1 in whole blocks.
    pub invalid_first: u64,
    /// Those of channel 2.
    pub invalid_second: u64,
    /// Events of another status or other validity bits.
    pub changes: u64,
}

/// The fields of a status for professional use.
#[repr(C)]
#[derive(Clone, Copy, Debug, Default, PartialEq, Eq)]
pub struct aes3_professional {
    /// Byte 0 bit 1: 0 linear PCM, 1 other.
    pub payload: u8,
    /// Byte 0 bits 2 to 4: pre-emphasis.
    pub emphasis: u8,
    /// Byte 0 bit 5: the source's sampling frequency is unlocked.
    pub unlocked: u8,
    /// Byte 0 bits 6 and 7: sampling frequency.
    pub rate: u8,
    /// Byte 1 bits 0 to 3: channel mode.
    pub mode: u8,
    /// Byte 1 bits 4 to 7: management of the user bits.
    pub user: u8,
    /// Byte 2 bits 0 to 2: use of the auxiliary bits.
    pub aux: u8,
    /// Byte 2 bits 3 to 5: sample word length, a code under that of `aux`.
    pub word: u8,
    /// Byte 2 bits 6 and 7: alignment level.
    pub b2high: u8,
    /// Byte 3: multichannel use.
    pub b3: u8,
    /// Byte 4: reference signal, further sampling frequencies.
    pub b4: u8,
    /// Byte 5.
    pub b5: u8,
    /// Bytes 6 to 9: four characters.
    pub origin: [u8; 4],
    /// Bytes 10 to 13: four characters.
    pub destination: [u8; 4],
    /// Bytes 14 to 17: local sample address.
    pub local: u32,
    /// Bytes 18 to 21: sample address of the time of day.
    pub time: u32,
    /// Byte 22 bits 4 to 7: which bytes are unreliable.
    pub unreliable: u8,
    /// Byte 22 bits 0 to 3.
    pub b22low: u8,
}

/// The fields of a status for consumer use.
#[repr(C)]
#[derive(Clone, Copy, Debug, Default, PartialEq, Eq)]
pub struct aes3_consumer {
    /// Byte 0 bit 1: 0 linear PCM, 1 other.
    pub payload: u8,
    /// Byte 0 bit 2: 0 asserted, 1 not asserted.
    pub copyright: u8,
    /// Byte 0 bits 3 to 5: of linear PCM the pre-emphasis.
    pub emphasis: u8,
    /// Byte 0 bits 6 and 7: status mode.
    pub mode: u8,
    /// Byte 1 bits 0 to 6: category code without its last bit.
    pub category: u8,
    /// Byte 1 bit 7: generation status.
    pub generation: u8,
    /// Byte 2 bits 0 to 3: source number.
    pub source: u8,
    /// Byte 2 bits 4 to 7: channel number.
    pub number: u8,
    /// Byte 3 bits 0 to 3: sampling frequency.
    pub rate: u8,
    /// Byte 3 bits 4 and 5: clock accuracy.
    pub accuracy: u8,
    /// Byte 3 bits 6 and 7.
    pub b3high: u8,
    /// Byte 4 bit 0: greatest sample word length, 0 for 20 bits, 1 for 24.
    pub greatest: u8,
    /// Byte 4 bits 1 to 3: sample word length, a code under that of `greatest`.
    pub word: u8,
    /// Byte 4 bits 4 to 7: original sampling frequency.
    pub original: u8,
    /// Bytes 5 to 23.
    pub rest: [u8; 19],
}

/// Byte 23 is the check byte.
pub const AES3_GOOD: u8 = 0;
/// Byte 23 is not the check byte, and is zero, as from a source that sends none.
pub const AES3_ABSENT: u8 = 1;
/// Byte 23 is not the check byte, and is not zero.
pub const AES3_BAD: u8 = 2;

/// The status has the setting.
pub const AES3_SET_DONE: u8 = 0;
/// No field is printed so.
pub const AES3_SET_UNKNOWN: u8 = 1;
/// The status has no such setting.
pub const AES3_SET_REFUSED: u8 = 2;

/// The first `cells` cells of a line are those of the first `samples` samples of its capture.
#[repr(C)]
#[derive(Clone, Copy, Debug, Default, PartialEq, Eq)]
pub struct aes3_mark {
    /// How many cells.
    pub cells: u64,
    /// How many samples.
    pub samples: u64,
}

/// What was found of a line among samples.
#[repr(C)]
#[derive(Clone, Copy, Debug, Default, PartialEq, Eq)]
pub struct aes3_capture {
    /// Octets of packed cells that were put.
    pub octets: u64,
    /// Samples taken.
    pub samples: u64,
    /// Cells recovered.
    pub cells: u64,
    /// How long a cell was last, in 65,536ths of a sample; 0 if none was given or found.
    pub period: u64,
    /// Edges followed.
    pub edges: u64,
    /// The greatest distance of an edge from its place, in 256ths of a sample.
    pub greatest: u64,
    /// The sum of the squares of these distances.
    pub squares: u64,
    /// Stretches without signal.
    pub dead: u64,
    /// The sample at which the latest of them began.
    pub dead_at: u64,
    /// How often the line was measured; 0 if no line was found.
    pub measured: u64,
}

/// What is kept of a capture that comes in pieces, in memory of its caller.
#[repr(C)]
#[derive(Clone, Copy)]
pub struct aes3_recovery {
    /// Opaque: only the calls write it.
    pub state: [u64; 813],
}

/// The header is not whole: more octets are needed.
pub const AES3_WAV_MORE: u8 = 0;
/// The header is whole.
pub const AES3_WAV_HEADER: u8 = 1;
/// The file begins with none of RIFF, RF64 and BW64.
pub const AES3_WAV_NOT_RIFF: u8 = 2;
/// It is a RIFF file of another kind than WAVE.
pub const AES3_WAV_NOT_WAVE: u8 = 3;
/// The chunk `ds64` is too short.
pub const AES3_WAV_SHORT_SIZES: u8 = 4;
/// The chunk `fmt ` is too short.
pub const AES3_WAV_SHORT_FORMAT: u8 = 5;
/// The samples are not PCM.
pub const AES3_WAV_NOT_PCM: u8 = 6;
/// The samples have no channels.
pub const AES3_WAV_NO_CHANNELS: u8 = 7;
/// A sample has other bits than 8, 16, 20, 24 or 32, or more than its octets hold.
pub const AES3_WAV_WRONG_BITS: u8 = 8;
/// A frame has another number of octets than the samples of its channels.
pub const AES3_WAV_WRONG_FRAME: u8 = 9;
/// The samples come before their format.
pub const AES3_WAV_NO_FORMAT: u8 = 10;
/// For callers: the file ended where more octets are needed. No call returns it.
pub const AES3_WAV_ENDED: u8 = 11;

/// A number of octets or of frames that is not known.
pub const AES3_WAV_UNKNOWN: u64 = u64::MAX;

/// Octets of a written WAV header, at most.
pub const AES3_WAV_OCTETS: usize = 104;

/// What the header of a WAV file says.
#[repr(C)]
#[derive(Clone, Copy, Debug, Default, PartialEq, Eq)]
pub struct aes3_wav {
    /// The octet of the file at which the samples begin, counted from 0.
    pub start: u64,
    /// Octets of all samples, or `AES3_WAV_UNKNOWN`.
    pub len: u64,
    /// Frames a second.
    pub rate: u32,
    /// Samples a frame, 1 at least.
    pub channels: u16,
    /// Octets a sample, 1 to 4, the lowest first.
    pub octets: u8,
    /// How many bits of a sample count, the highest ones: 8, 16, 20, 24 or 32.
    pub bits: u8,
}

// The sizes that the library was built for, as aes3.h has them.
const _: () = {
    assert!(core::mem::size_of::<aes3_lock>() == 3104);
    assert!(core::mem::size_of::<aes3_report>() == 1560);
    assert!(core::mem::size_of::<aes3_account>() == 16);
    assert!(core::mem::size_of::<aes3_gap>() == 24);
    assert!(core::mem::size_of::<aes3_watch>() == 80);
    assert!(core::mem::size_of::<aes3_event>() == 48);
    assert!(core::mem::size_of::<aes3_channel_levels>() == 24);
    assert!(core::mem::size_of::<aes3_levels>() == 56);
    assert!(core::mem::size_of::<aes3_sums>() == 192);
    assert!(core::mem::size_of::<aes3_sum>() == 96);
    assert!(core::mem::size_of::<aes3_professional>() == 32);
    assert!(core::mem::size_of::<aes3_consumer>() == 33);
    assert!(core::mem::size_of::<aes3_capture>() == 80);
    assert!(core::mem::size_of::<aes3_recovery>() == 6504);
    assert!(core::mem::size_of::<aes3_wav>() == 24);
};

extern "C" {
    /// The version of the library that runs: 65,536 times the major number, 256 times the minor one, and the patch.
    pub fn aes3_version() -> u32;
    /// Makes a lock that has seen no cell.
    pub fn aes3_lock_init(lock: *mut aes3_lock);
    /// How many cells the lock has seen.
    pub fn aes3_lock_seen(lock: *const aes3_lock) -> u64;
    /// Takes words that decide no report; returns how many.
    pub fn aes3_lock_take_words(lock: *mut aes3_lock, words: *const u64, count: usize) -> usize;
    /// Takes the first `count` cells of a word, 64 at most, up to a report; returns how many.
    pub fn aes3_lock_push(lock: *mut aes3_lock, word: u64, count: u32, report: *mut aes3_report) -> u32;
    /// Takes the cells of octets from number `first` on, up to a report; returns how many.
    pub fn aes3_lock_take_octets(
        lock: *mut aes3_lock,
        octets: *const u8,
        count: usize,
        first: usize,
        report: *mut aes3_report,
    ) -> usize;
    /// Puts the words of the last report's block.
    pub fn aes3_lock_block(lock: *const aes3_lock, words: *mut u32);
    /// Takes the cells of words from number `first` on, up to a report; returns how many.
    pub fn aes3_lock_take_cells(
        lock: *mut aes3_lock,
        words: *const u64,
        count: usize,
        first: usize,
        report: *mut aes3_report,
    ) -> usize;
    /// Puts the report that the end of the cells decides, or `AES3_NONE`.
    pub fn aes3_lock_finish(lock: *const aes3_lock, report: *mut aes3_report);
    /// Makes an account for a lock that has seen no cell.
    pub fn aes3_account_init(account: *mut aes3_account);
    /// Puts the next gap before a report, if there is one.
    pub fn aes3_account_before(account: *mut aes3_account, report: *const aes3_report, gap: *mut aes3_gap) -> bool;
    /// Puts the next gap that no later cell changes, if there is one.
    pub fn aes3_account_passed(account: *mut aes3_account, seen: u64, gap: *mut aes3_gap) -> bool;
    /// Puts the next gap at the end of the cells, if there is one.
    pub fn aes3_account_end(account: *mut aes3_account, seen: u64, gap: *mut aes3_gap) -> bool;
    /// Makes the state of a line for a lock that has seen no cell.
    pub fn aes3_watch_init(watch: *mut aes3_watch);
    /// Puts the events of a report, with room for `AES3_EVENTS` of them; returns how many.
    pub fn aes3_watch_report(watch: *mut aes3_watch, report: *const aes3_report, events: *mut aes3_event) -> u32;
    /// Puts the loss that no later cell changes, if there is one; returns how many events.
    pub fn aes3_watch_passed(watch: *mut aes3_watch, seen: u64, events: *mut aes3_event) -> u32;
    /// Puts the events of the end of the cells; returns how many.
    pub fn aes3_watch_end(watch: *const aes3_watch, seen: u64, events: *mut aes3_event) -> u32;
    /// Makes the counts of samples without any block.
    pub fn aes3_levels_init(levels: *mut aes3_levels);
    /// Counts the samples of a block.
    pub fn aes3_levels_add(levels: *mut aes3_levels, words: *const u32);
    /// The peak of a channel, 1 or 2, in tenths of a decibel below full scale; `AES3_NO_LEVEL` if there is none.
    pub fn aes3_levels_peak(levels: *const aes3_levels, channel: u8) -> u32;
    /// The RMS of a channel likewise.
    pub fn aes3_levels_rms(levels: *const aes3_levels, channel: u8) -> u32;
    /// Makes the state of a line for a lock that has seen no cell, with periods of 1 to 2^40 cells; false if there are none such.
    pub fn aes3_sums_init(sums: *mut aes3_sums, every: u64) -> bool;
    /// Puts the sum of the next period that ends before a report, if there is one; else counts the report.
    pub fn aes3_sums_before(sums: *mut aes3_sums, report: *const aes3_report, sum: *mut aes3_sum) -> bool;
    /// Puts the sum of the next period that no later cell changes, if there is one.
    pub fn aes3_sums_passed(sums: *mut aes3_sums, seen: u64, sum: *mut aes3_sum) -> bool;
    /// Puts the next sum at the end of the cells, if there is one.
    pub fn aes3_sums_end(sums: *mut aes3_sums, seen: u64, sum: *mut aes3_sum) -> bool;
    /// Puts the cells of a block after the level `before`; returns 384, or the number of the first word that is not valid.
    pub fn aes3_encode_block(words: *const u32, before: u8, cells: *mut u64) -> u32;
    /// Puts the cells of blocks as octets; returns how many words it took, or the number of the first that is not valid.
    pub fn aes3_encode_blocks(words: *const u32, count: usize, before: u8, octets: *mut u8, room: usize) -> usize;
    /// Puts the channel status of channel 1 or 2.
    pub fn aes3_block_status(words: *const u32, channel: u8, status: *mut u8) -> u32;
    /// Puts the V bits of channel 1 or 2.
    pub fn aes3_block_validity(words: *const u32, channel: u8, bits: *mut u8) -> u32;
    /// Puts the U bits of channel 1 or 2.
    pub fn aes3_block_user(words: *const u32, channel: u8, bits: *mut u8) -> u32;
    /// Sets the channel status of channel 1 or 2, and the parity bits.
    pub fn aes3_block_set_status(words: *mut u32, channel: u8, status: *const u8) -> u32;
    /// Sets the V bits of channel 1 or 2, and the parity bits.
    pub fn aes3_block_set_validity(words: *mut u32, channel: u8, bits: *const u8) -> u32;
    /// Sets the U bits of channel 1 or 2, and the parity bits.
    pub fn aes3_block_set_user(words: *mut u32, channel: u8, bits: *const u8) -> u32;
    /// Puts the samples of a block, 24 bits in the highest of 32.
    pub fn aes3_block_samples(words: *const u32, samples: *mut i32) -> u32;
    /// Puts the words of a block with these samples; V, U and C are 0.
    pub fn aes3_block_of_samples(samples: *const i32, words: *mut u32);
    /// Puts the words of blocks as octets in a form; returns how many words it took, or the number of the first that is not valid.
    pub fn aes3_subframes_of_blocks(words: *const u32, count: usize, form: u8, octets: *mut u8, room: usize) -> usize;
    /// Puts the words of the blocks that octets in a form have; returns how many, or the number of the first that is not valid.
    pub fn aes3_blocks_of_subframes(octets: *const u8, count: usize, form: u8, words: *mut u32, room: usize) -> usize;
    /// Puts the samples of blocks as octets in a form; returns how many words it took, or the number of the first that is not valid.
    pub fn aes3_samples_of_blocks(words: *const u32, count: usize, form: u8, octets: *mut u8, room: usize) -> usize;
    /// Puts the words of the blocks of samples in a form; returns how many.
    pub fn aes3_blocks_of_samples(octets: *const u8, count: usize, form: u8, words: *mut u32, room: usize) -> usize;
    /// The number of the first word of blocks whose sample would lose bits in a form, or `count`.
    pub fn aes3_blocks_fit(words: *const u32, count: usize, form: u8) -> usize;
    /// The number of the lowest octet of the first sample in a form that has more than 24 bits, or `count`.
    pub fn aes3_samples_fit(octets: *const u8, count: usize, form: u8) -> usize;
    /// Puts the word of 64 characters, if each is `0` or `1`.
    pub fn aes3_word_of_text(text: *const u8, word: *mut u64) -> bool;
    /// The word of eight octets.
    pub fn aes3_word_of_octets(octets: *const u8) -> u64;
    /// Puts the words of octets; returns how many.
    pub fn aes3_words_of_octets(octets: *const u8, count: usize, words: *mut u64, room: usize) -> usize;
    /// Puts the cells of a word as 64 characters and a line feed.
    pub fn aes3_line_of_word(word: u64, line: *mut u8);
    /// Puts the cells of a word as eight octets.
    pub fn aes3_octets_of_word(word: u64, octets: *mut u8);
    /// Puts the fields of a status for professional use, if it is one.
    pub fn aes3_status_professional(status: *const u8, fields: *mut aes3_professional) -> bool;
    /// Puts the fields of a status for consumer use, if it is one.
    pub fn aes3_status_consumer(status: *const u8, fields: *mut aes3_consumer) -> bool;
    /// Puts the status with these fields, if each code fits its field.
    pub fn aes3_status_of_professional(fields: *const aes3_professional, status: *mut u8) -> bool;
    /// Puts the status with these fields, if each code fits its field.
    pub fn aes3_status_of_consumer(fields: *const aes3_consumer, status: *mut u8) -> bool;
    /// Puts the text that `aes3 show` writes, without a 0 at the end; returns its length.
    pub fn aes3_status_text(status: *const u8, text: *mut u8) -> u32;
    /// Sets the field that a text `NAME=WORD` names; returns `AES3_SET_DONE`, `AES3_SET_UNKNOWN` or `AES3_SET_REFUSED`.
    pub fn aes3_status_set(status: *mut u8, text: *const u8, count: usize) -> u8;
    /// Reverses each octet, so that its first cell is in the other end.
    pub fn aes3_reverse_octets(octets: *mut u8, count: usize);
    /// How many frames are missing between whole blocks: the first of all, the last one, and the next one.
    pub fn aes3_frames_between(first: u64, before: u64, at: u64) -> u64;
    /// The check byte of a professional status, for byte 23.
    pub fn aes3_status_check_byte(status: *const u8) -> u8;
    /// `AES3_GOOD`, `AES3_ABSENT` or `AES3_BAD`.
    pub fn aes3_status_check_state(status: *const u8) -> u8;
    /// Puts the packed cells of the line in a capture; returns whether all of them fit.
    pub fn aes3_capture_cells(
        samples: *const u8,
        count: usize,
        unit: u8,
        bit: u8,
        period: u64,
        cells: *mut u8,
        room: usize,
        found: *mut aes3_capture,
    ) -> bool;
    /// Makes a recovery of which no sample came.
    pub fn aes3_recovery_init(recovery: *mut aes3_recovery, period: u64);
    /// Takes samples, and puts packed cells as long as there is room; returns whether it took all whole samples.
    pub fn aes3_recovery_take(
        recovery: *mut aes3_recovery,
        samples: *const u8,
        count: usize,
        unit: u8,
        bit: u8,
        taken: *mut usize,
        cells: *mut u8,
        room: usize,
        put: *mut usize,
    ) -> bool;
    /// Takes the end of the samples, and puts the last packed cells; returns whether all were put.
    pub fn aes3_recovery_finish(recovery: *mut aes3_recovery, cells: *mut u8, room: usize, put: *mut usize) -> bool;
    /// Puts what was found of the line so far.
    pub fn aes3_recovery_figures(recovery: *const aes3_recovery, found: *mut aes3_capture);
    /// Puts a mark after the cells that the samples so far decide; returns whether there is one.
    pub fn aes3_recovery_mark(recovery: *const aes3_recovery, mark: *mut aes3_mark) -> bool;
    /// The sample at which a cell between two marks begins.
    pub fn aes3_sample_between(before: *const aes3_mark, after: *const aes3_mark, cell: u64) -> u64;
    /// Reads the header of a WAV file; returns `AES3_WAV_MORE`, `AES3_WAV_HEADER`, or why it is rejected.
    pub fn aes3_wav_read(octets: *const u8, count: usize, wav: *mut aes3_wav, at: *mut u64) -> u8;
    /// Puts the samples of two channels; returns how many frames.
    pub fn aes3_wav_samples(
        wav: *const aes3_wav,
        first: u16,
        second: u16,
        octets: *const u8,
        count: usize,
        samples: *mut i32,
        room: usize,
    ) -> usize;
    /// Puts the header of a WAV file; returns its length.
    pub fn aes3_wav_write(bits: u8, rate: u32, frames: u64, octets: *mut u8) -> u32;
}
