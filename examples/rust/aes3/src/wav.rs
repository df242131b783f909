use crate::Error;
use aes3_sys as sys;
use core::fmt;

/// Why the header of a WAV file is rejected.
#[derive(Clone, Copy, Debug, PartialEq, Eq)]
#[non_exhaustive]
pub enum WavFault {
    /// The file begins with none of RIFF, RF64 and BW64.
    NotRiff,
    /// It is a RIFF file of another kind than WAVE.
    NotWave,
    /// The chunk `ds64` is too short.
    ShortSizes,
    /// The chunk `fmt ` is too short.
    ShortFormat,
    /// The samples are not PCM, but for example floating point.
    NotPcm,
    /// The samples have no channels.
    NoChannels,
    /// A sample has other bits than 8, 16, 20, 24 or 32, or more than its octets hold.
    WrongBits,
    /// A frame has another number of octets than the samples of its channels.
    WrongFrame,
    /// The samples come before their format.
    NoFormat,
    /// The file ended inside its header.
    Ended,
}

impl fmt::Display for WavFault {
    fn fmt(&self, to: &mut fmt::Formatter<'_>) -> fmt::Result {
        to.write_str(match self {
            WavFault::NotRiff => "the file begins with none of RIFF, RF64 and BW64",
            WavFault::NotWave => "this RIFF file is not a WAV file",
            WavFault::ShortSizes => "the chunk `ds64` is too short",
            WavFault::ShortFormat => "the chunk `fmt ` is too short",
            WavFault::NotPcm => "the samples are not PCM",
            WavFault::NoChannels => "the samples have no channels",
            WavFault::WrongBits => "a sample has other bits than 8, 16, 20, 24 or 32",
            WavFault::WrongFrame => "a frame has another number of octets than its samples",
            WavFault::NoFormat => "the samples come before their format",
            WavFault::Ended => "the file ends inside its header",
        })
    }
}

/// What the first octets of a WAV file say of its header.
#[derive(Clone, Copy, Debug, PartialEq, Eq)]
pub enum WavRead {
    /// The header is whole.
    Header(Wav),
    /// At least the file's first `needed` octets are needed.
    More {
        /// How many, counted from the start of the file: more than were given.
        needed: u64,
    },
}

/// What the header of a WAV file says: RIFF, RF64 or BW64, with PCM samples of 8, 16, 20, 24 or 32 bits.
///
/// ```
/// use aes3::{Wav, WavBits, WavRead};
///
/// let header = Wav::write(WavBits::B16, 44_100, Some(1));
/// let octets = [&header[..], &[0, 1, 0, 0x80]].concat();
/// let wav = match Wav::read(&octets)? {
///     WavRead::Header(wav) => wav,
///     WavRead::More { needed } => panic!("the first {needed} octets are needed"),
/// };
/// assert_eq!((wav.rate, wav.channels, wav.len), (44_100, 2, Some(4)));
/// let mut samples = [0; 2];
/// assert_eq!(wav.samples((1, 2), &octets[wav.start as usize..], &mut samples)?, 1);
/// assert_eq!(samples, [0x0100 << 16, i32::MIN]);
/// # Ok::<(), aes3::Error>(())
/// ```
#[derive(Clone, Copy, Debug, PartialEq, Eq)]
pub struct Wav {
    /// The octet of the file at which the samples begin, counted from 0.
    pub start: u64,
    /// Octets of all samples. `None` if the header does not say it: the samples then go on to the end of the file.
    pub len: Option<u64>,
    /// Frames a second.
    pub rate: u32,
    /// Samples a frame, 1 at least.
    pub channels: u16,
    /// Octets a sample, 1 to 4, the lowest first.
    pub octets: u8,
    /// How many bits of a sample count, the highest ones: 8, 16, 20, 24 or 32.
    pub bits: u8,
}

impl Wav {
    /// Judges the header of a WAV file by the file's first octets.
    pub fn read(octets: &[u8]) -> Result<WavRead, Error> {
        let (mut wav, mut at) = (sys::aes3_wav::default(), 0);
        // SAFETY: the octets are given with their number, and the other two are other places.
        let fault = match unsafe { sys::aes3_wav_read(octets.as_ptr(), octets.len(), &mut wav, &mut at) } {
            sys::AES3_WAV_HEADER => return Ok(WavRead::Header(Wav::of(&wav))),
            sys::AES3_WAV_MORE => return Ok(WavRead::More { needed: at }),
            sys::AES3_WAV_NOT_RIFF => WavFault::NotRiff,
            sys::AES3_WAV_NOT_WAVE => WavFault::NotWave,
            sys::AES3_WAV_SHORT_SIZES => WavFault::ShortSizes,
            sys::AES3_WAV_SHORT_FORMAT => WavFault::ShortFormat,
            sys::AES3_WAV_NOT_PCM => WavFault::NotPcm,
            sys::AES3_WAV_NO_CHANNELS => WavFault::NoChannels,
            sys::AES3_WAV_WRONG_BITS => WavFault::WrongBits,
            sys::AES3_WAV_WRONG_FRAME => WavFault::WrongFrame,
            _ => WavFault::NoFormat,
        };
        Err(Error::Wav { at, fault })
    }

    /// Reads the header of a WAV file, and no octet after it. A rejected header, and a file that ends inside it, is an
    /// `io::Error` with an [`Error`] inside.
    ///
    /// ```
    /// use aes3::{Error, Wav, WavBits, WavFault};
    ///
    /// let mut file = &Wav::write(WavBits::B24, 48_000, None)[..];
    /// assert_eq!(Wav::read_from(&mut file)?.bits, 24);
    /// assert!(file.is_empty());
    /// let error = Wav::read_from(&b"RIFF"[..]).unwrap_err();
    /// assert_eq!(error.get_ref().unwrap().downcast_ref(), Some(&Error::Wav { at: 4, fault: WavFault::Ended }));
    /// # Ok::<(), std::io::Error>(())
    /// ```
    #[cfg(feature = "std")]
    pub fn read_from(mut from: impl std::io::Read) -> std::io::Result<Wav> {
        use std::io::Read;
        let mut octets = Vec::new();
        loop {
            match Wav::read(&octets)? {
                WavRead::Header(wav) => return Ok(wav),
                WavRead::More { needed } => {
                    let more = needed - octets.len() as u64;
                    // What is read, and not what the header asks for, is what takes memory.
                    if (from.by_ref().take(more).read_to_end(&mut octets)? as u64) < more {
                        return Err(Error::Wav { at: octets.len() as u64, fault: WavFault::Ended }.into());
                    }
                }
            }
        }
    }

    /// Octets of a frame.
    pub fn frame(&self) -> usize {
        usize::from(self.channels) * usize::from(self.octets)
    }

    /// Puts the samples of two channels, of one and of the other for each frame, and returns how many frames it put. The
    /// highest bit of a sample is the highest of 32.
    ///
    /// It takes whole frames as long as there are octets, and room for two samples. Channels are counted from 1. If the second
    /// is 0, its samples are zero.
    pub fn samples(&self, channels: (u16, u16), octets: &[u8], samples: &mut [i32]) -> Result<usize, Error> {
        let (first, second) = channels;
        if let Some(channel) = [(first, 1), (second, 0)].iter().find(|it| it.0 < it.1 || it.0 > self.channels) {
            return Err(Error::NoChannel { channel: channel.0 });
        }
        let wav = self.told();
        // SAFETY: both slices are given with their lengths, and the three are other places.
        Ok(unsafe {
            sys::aes3_wav_samples(
                &wav,
                first,
                second,
                octets.as_ptr(),
                octets.len(),
                samples.as_mut_ptr(),
                samples.len(),
            )
        })
    }

    /// The header of a WAV file with two channels and this number of frames, as `aes3 to-wav -o` writes it. From 4 GiB on the
    /// file is RF64. Without a number, or from 2^60 on, the header says that the length is not known.
    ///
    /// For the same `bits` the header has the same length, so one with the right number can be written over it later. Samples
    /// follow it, channel 1 and 2 of each frame: [`WavBits::octets_of`].
    pub fn write(bits: WavBits, rate: u32, frames: Option<u64>) -> WavHeader {
        let mut header = WavHeader { octets: [0; sys::AES3_WAV_OCTETS], len: 0 };
        let frames = frames.unwrap_or(sys::AES3_WAV_UNKNOWN);
        // SAFETY: there is room for 104 octets.
        let len = unsafe { sys::aes3_wav_write(bits as u8, rate, frames, header.octets.as_mut_ptr()) };
        header.len = len as usize;
        header
    }

    fn of(wav: &sys::aes3_wav) -> Wav {
        let sys::aes3_wav { start, len, rate, channels, octets, bits } = *wav;
        let len = if len == sys::AES3_WAV_UNKNOWN { None } else { Some(len) };
        Wav { start, len, rate, channels, octets, bits }
    }

    fn told(&self) -> sys::aes3_wav {
        let Wav { start, len, rate, channels, octets, bits } = *self;
        sys::aes3_wav { start, len: len.unwrap_or(sys::AES3_WAV_UNKNOWN), rate, channels, octets, bits }
    }
}

/// How many bits a sample has in a WAV file that is written.
#[derive(Clone, Copy, Debug, PartialEq, Eq)]
pub enum WavBits {
    /// 16 bits.
    B16 = 16,
    /// 24 bits.
    B24 = 24,
    /// 32 bits.
    B32 = 32,
}

impl WavBits {
    /// Octets of a sample.
    pub fn octets(self) -> usize {
        self as usize / 8
    }

    /// The octets of a sample whose highest bit is the highest of 32: its highest bits, the lowest octet first.
    ///
    /// ```
    /// use aes3::WavBits;
    ///
    /// let octets: Vec<u8> = WavBits::B24.octets_of(0x12345600).collect();
    /// assert_eq!(octets, [0x56, 0x34, 0x12]);
    /// ```
    pub fn octets_of(self, sample: i32) -> impl Iterator<Item = u8> {
        (4 - self.octets()..4).map(move |i| sample.to_le_bytes()[i])
    }
}

/// The octets of the header of a WAV file.
#[derive(Clone, Copy, Debug, PartialEq, Eq)]
pub struct WavHeader {
    octets: [u8; sys::AES3_WAV_OCTETS],
    len: usize,
}

impl core::ops::Deref for WavHeader {
    type Target = [u8];

    fn deref(&self) -> &[u8] {
        &self.octets[..self.len]
    }
}

impl AsRef<[u8]> for WavHeader {
    fn as_ref(&self) -> &[u8] {
        self
    }
}
