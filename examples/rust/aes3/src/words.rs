use aes3_sys as sys;

/// The version of the library that runs: its major, minor and patch number.
pub fn library_version() -> (u32, u32, u32) {
    // SAFETY: the call takes nothing.
    let number = unsafe { sys::aes3_version() };
    (number >> 16, number >> 8 & 255, number & 255)
}

/// The cells of 64 characters, where each is `0` or `1`.
pub fn word_of_text(text: &[u8; 64]) -> Option<u64> {
    let mut word = 0;
    // SAFETY: the text has 64 characters, and the word is another place.
    unsafe { sys::aes3_word_of_text(text.as_ptr(), &mut word) }.then_some(word)
}

/// The cells of eight octets, the first in the highest bit of the first.
pub fn word_of_octets(octets: &[u8; 8]) -> u64 {
    // SAFETY: the octets are eight.
    unsafe { sys::aes3_word_of_octets(octets.as_ptr()) }
}

/// The cells of a word as 64 characters and a line feed.
///
/// ```
/// let line = aes3::line_of_word(0b1011);
/// assert!(line.starts_with(b"1101000"));
/// assert_eq!(aes3::word_of_text(line[..64].try_into()?), Some(0b1011));
/// # Ok::<(), std::array::TryFromSliceError>(())
/// ```
pub fn line_of_word(word: u64) -> [u8; 65] {
    let mut line = [0; 65];
    // SAFETY: the line has room for 65 characters.
    unsafe { sys::aes3_line_of_word(word, line.as_mut_ptr()) };
    line
}

/// The cells of a word as eight octets, the first in the highest bit of the first. Packed cells end with one octet more: how many
/// cells of the last are unused, here 0.
pub fn octets_of_word(word: u64) -> [u8; 8] {
    let mut octets = [0; 8];
    // SAFETY: there is room for eight octets.
    unsafe { sys::aes3_octets_of_word(word, octets.as_mut_ptr()) };
    octets
}
