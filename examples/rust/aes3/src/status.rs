use crate::{Consumer, Error, Professional};
use aes3_sys as sys;
use core::fmt;

/// Bytes of a channel status.
pub const STATUS_BYTES: usize = sys::AES3_STATUS_BYTES;

/// Whether byte 23 of a professional status is its check byte. Its text is the word of `aes3 show`.
#[derive(Clone, Copy, Debug, PartialEq, Eq)]
pub enum Check {
    /// Byte 23 is the check byte.
    Good,
    /// It is not, and is zero, as from a source that sends none.
    Absent,
    /// It is not, and is not zero.
    Bad,
}

impl fmt::Display for Check {
    fn fmt(&self, to: &mut fmt::Formatter<'_>) -> fmt::Result {
        to.write_str(match self {
            Check::Good => "good",
            Check::Absent => "absent",
            Check::Bad => "bad",
        })
    }
}

/// A channel status: bit i % 8 of byte i / 8 is the C bit of frame i.
///
/// Its text is its use and its fields, as `aes3 show` prints them:
///
/// ```
/// use aes3::{Consumer, Status};
///
/// let fields = Consumer { copyright: 1, rate: 2, greatest: 1, word: 5, ..Consumer::default() };
/// let status = Status::of_consumer(&fields).expect("each code fits its field");
/// assert!(status.to_string().starts_with("consumer payload=pcm copyright=not-asserted "));
/// assert_eq!(status.rate(), Some(48_000));
/// ```
#[derive(Clone, Copy, Debug, PartialEq, Eq)]
pub struct Status {
    /// The bytes, the first sent first.
    pub bytes: [u8; STATUS_BYTES],
}

impl Status {
    /// The status for professional use with these fields and their check byte; `None` where a field has no bits for its code.
    pub fn of_professional(fields: &Professional) -> Option<Status> {
        let mut bytes = [0; STATUS_BYTES];
        // SAFETY: the bytes are 24, and the fields are another place.
        unsafe { sys::aes3_status_of_professional(fields, bytes.as_mut_ptr()) }.then_some(Status { bytes })
    }

    /// The same for consumer use, without a check byte.
    pub fn of_consumer(fields: &Consumer) -> Option<Status> {
        let mut bytes = [0; STATUS_BYTES];
        // SAFETY: the bytes are 24, and the fields are another place.
        unsafe { sys::aes3_status_of_consumer(fields, bytes.as_mut_ptr()) }.then_some(Status { bytes })
    }

    /// The fields of a status for professional use (AES3-2), where it is one.
    pub fn professional(&self) -> Option<Professional> {
        let mut fields = Professional::default();
        // SAFETY: the bytes are 24, and the fields are another place.
        unsafe { sys::aes3_status_professional(self.bytes.as_ptr(), &mut fields) }.then_some(fields)
    }

    /// The fields of a status for consumer use (IEC 60958-3), where it is one.
    pub fn consumer(&self) -> Option<Consumer> {
        let mut fields = Consumer::default();
        // SAFETY: the bytes are 24, and the fields are another place.
        unsafe { sys::aes3_status_consumer(self.bytes.as_ptr(), &mut fields) }.then_some(fields)
    }

    /// Sets a field by the text `NAME=WORD`, as `aes3 rewrite --set` does. The names and words are those of `aes3 show` and
    /// `aes3 show --names`. A status for professional use gets its check byte.
    ///
    /// ```
    /// use aes3::{Error, Status};
    ///
    /// let mut status = Status { bytes: [0; 24] };
    /// status.set("emphasis=50/15")?;
    /// status.set("rate=48000")?;
    /// assert!(status.to_string().contains(" emphasis=50/15 ") && status.rate() == Some(48_000));
    /// assert_eq!(status.set("emphasis=50/16"), Err(Error::UnknownSetting));
    /// assert_eq!(status.set("unlocked=yes"), Err(Error::OtherStatus)); // a field of professional use
    /// # Ok::<(), Error>(())
    /// ```
    ///
    /// # Errors
    /// [`Error::UnknownSetting`] and [`Error::OtherStatus`]; the status is then unchanged.
    pub fn set(&mut self, text: &str) -> Result<(), Error> {
        // SAFETY: the bytes are 24, and the text is given with its length.
        match unsafe { sys::aes3_status_set(self.bytes.as_mut_ptr(), text.as_ptr(), text.len()) } {
            sys::AES3_SET_DONE => (),
            sys::AES3_SET_REFUSED => return Err(Error::OtherStatus),
            _ => return Err(Error::UnknownSetting),
        }
        if self.bytes[0] & 1 == 1 {
            self.bytes[23] = self.check_byte();
        }
        Ok(())
    }

    /// The sampling frequency in hertz, if the status names one: the one that `aes3 to-wav` writes into its header.
    pub fn rate(&self) -> Option<u32> {
        let code = self.bytes[0] >> 6;
        if self.bytes[0] & 1 == 0 {
            rate_in(&CONSUMER, self.bytes[3] & 15)
        } else if code != 0 {
            rate_in(&BYTE_0, code)
        } else {
            rate_in(&BYTE_4, self.bytes[4] >> 3 & 15)
        }
    }

    /// The check byte (CRCC) of a professional status, from its bytes 0 to 22.
    pub fn check_byte(&self) -> u8 {
        // SAFETY: the bytes are 24.
        unsafe { sys::aes3_status_check_byte(self.bytes.as_ptr()) }
    }

    /// Whether its check byte is right, wrong or absent.
    pub fn check(&self) -> Check {
        // SAFETY: the bytes are 24.
        match unsafe { sys::aes3_status_check_state(self.bytes.as_ptr()) } {
            sys::AES3_GOOD => Check::Good,
            sys::AES3_ABSENT => Check::Absent,
            _ => Check::Bad,
        }
    }
}

// Codes of sampling frequencies: of IEC 60958-3 in byte 3; of AES3-2 in byte 0 and, if that is 0, in byte 4.
const CONSUMER: [(u8, u32); 10] = [
    (0, 44_100),
    (2, 48_000),
    (3, 32_000),
    (4, 22_050),
    (6, 24_000),
    (8, 88_200),
    (9, 768_000),
    (10, 96_000),
    (12, 176_400),
    (14, 192_000),
];
const BYTE_0: [(u8, u32); 3] = [(1, 44_100), (2, 48_000), (3, 32_000)];
const BYTE_4: [(u8, u32); 6] = [(1, 24_000), (2, 96_000), (3, 192_000), (9, 22_050), (10, 88_200), (11, 176_400)];

/// The sampling frequency of a code.
fn rate_in(codes: &[(u8, u32)], code: u8) -> Option<u32> {
    codes.iter().find(|row| row.0 == code).map(|row| row.1)
}

impl fmt::Display for Status {
    fn fmt(&self, to: &mut fmt::Formatter<'_>) -> fmt::Result {
        let mut text = [0; sys::AES3_STATUS_TEXT];
        // SAFETY: the bytes are 24, and there is room for 800 characters.
        let len = unsafe { sys::aes3_status_text(self.bytes.as_ptr(), text.as_mut_ptr()) };
        // It begins with a space, and is ASCII.
        to.write_str(core::str::from_utf8(&text[1..len as usize]).map_err(|_| fmt::Error)?)
    }
}
