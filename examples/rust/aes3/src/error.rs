use crate::WavFault;
use core::fmt;

/// Why a call gives nothing.
///
/// With the feature `std` it is a `std::error::Error`, and becomes a `std::io::Error` that has it inside:
///
/// ```
/// let error: std::io::Error = aes3::Error::NotACell { at: 7 }.into();
/// assert_eq!(error.kind(), std::io::ErrorKind::InvalidData);
/// assert_eq!(error.to_string(), "byte 7 is not a cell: cell text has 0 and 1");
/// let inside = error.get_ref().and_then(|it| it.downcast_ref::<aes3::Error>());
/// assert_eq!(inside, Some(&aes3::Error::NotACell { at: 7 }));
/// ```
#[derive(Clone, Copy, Debug, PartialEq, Eq)]
#[non_exhaustive]
pub enum Error {
    /// Word number `word` of a block is not valid: bits 0 to 3 are not zero, or bit 31 is not the parity of bits 4 to 30.
    BadWord {
        /// The number of the first such word, counted from 0 in the block, or in all blocks of a call that takes many.
        word: usize,
    },
    /// The lock has taken 2^43 cells, 16 days of a line at 48 kHz. Make a new one.
    Full,
    /// The cells of a capture are more than there is room for.
    NoRoom,
    /// A byte of cell text is neither `0`, `1`, a line feed, a carriage return nor a space.
    NotACell {
        /// The number of the byte, counted from 0.
        at: u64,
    },
    /// Packed cells do not end with the number of unused cells, 0 to 7, or an unused cell is not 0.
    NotPacked {
        /// How many octets the input has.
        len: u64,
    },
    /// No field of channel status is printed as a setting says.
    UnknownSetting,
    /// The field of a setting is one of the other use, or has no code for the word in this status.
    OtherStatus,
    /// The header of a WAV file is rejected.
    Wav {
        /// The octet that is wrong, counted from 0; of a file that ended, its number of octets.
        at: u64,
        /// What is wrong.
        fault: WavFault,
    },
    /// A WAV file has no channel of this number.
    NoChannel {
        /// The number; channels are counted from 1.
        channel: u16,
    },
}

impl fmt::Display for Error {
    fn fmt(&self, to: &mut fmt::Formatter<'_>) -> fmt::Result {
        match self {
            Error::BadWord { word } => write!(to, "word {word} is not valid"),
            Error::Full => to.write_str("the lock has taken 2^43 cells"),
            Error::NoRoom => to.write_str("there is no room for the cells of the capture"),
            Error::NotACell { at } => write!(to, "byte {at} is not a cell: cell text has 0 and 1"),
            Error::NotPacked { len } => {
                write!(to, "the {len} octets do not end as packed cells do, with the number of unused cells")
            }
            Error::UnknownSetting => to.write_str("no field of channel status is printed so"),
            Error::OtherStatus => to.write_str("this channel status has no such setting"),
            Error::Wav { at, fault } => write!(to, "octet {at}: {fault}"),
            Error::NoChannel { channel } => write!(to, "the file has no channel {channel}"),
        }
    }
}

#[cfg(feature = "std")]
impl std::error::Error for Error {}

/// Of kind `UnexpectedEof` for a file that ended, else `InvalidData`.
#[cfg(feature = "std")]
impl From<Error> for std::io::Error {
    fn from(error: Error) -> std::io::Error {
        let kind = match error {
            Error::Wav { fault: WavFault::Ended, .. } => std::io::ErrorKind::UnexpectedEof,
            _ => std::io::ErrorKind::InvalidData,
        };
        std::io::Error::new(kind, error)
    }
}
