use crate::error::Error;
use aes3_sys as sys;
use core::{fmt, num::NonZeroU64};

/// How the samples of a capture lie, and which bit of them the line is.
#[derive(Clone, Copy, Debug, PartialEq, Eq)]
pub enum Unit {
    /// Samples of one octet, and the line in this bit, 0 to 7.
    Octets(u8),
    /// Samples of two octets, the lower first, and the line in this bit, 0 to 15.
    Pairs(u8),
}

impl Unit {
    /// How many octets a sample has, and the bit.
    fn numbers(self) -> (u8, u8) {
        match self {
            Unit::Octets(bit) => (1, bit),
            Unit::Pairs(bit) => (2, bit),
        }
    }
}

/// How many octets are room enough for the packed cells of that many octets of samples.
pub const fn room_for(samples: usize) -> usize {
    samples / 4 + 64
}

/// Recovers the cells of a line from all samples of a capture, as `aes3-cells --packed-out` does. The first `octets` of `cells`
/// are then the packed cells. A cell is `period` 65,536ths of a sample, or is measured. If `measured` is 0, no line was found.
///
/// ```
/// use aes3::{Block, Unit};
///
/// // A line in bit 3 of samples of one octet, four samples a cell.
/// let cells = Block::silence().encode(false)?;
/// let level = |cell: usize| (cells[cell / 64] >> (cell % 64) & 1) as u8;
/// let samples: Vec<u8> = (0..4 * aes3::BLOCK_CELLS).map(|i| level(i / 4) << 3).collect();
/// let mut packed = vec![0; aes3::room_for(samples.len())];
/// let found = aes3::cells_of_samples(&samples, Unit::Octets(3), None, &mut packed)?;
/// assert!(found.measured > 0);
/// assert_eq!(packed[..8], aes3::octets_of_word(cells[0]));
/// # Ok::<(), aes3::Error>(())
/// ```
///
/// # Errors
/// [`Error::NoRoom`] if the cells don't fit.
pub fn cells_of_samples(
    samples: &[u8],
    unit: Unit,
    period: Option<NonZeroU64>,
    cells: &mut [u8],
) -> Result<sys::aes3_capture, Error> {
    let (octets, bit) = unit.numbers();
    let mut found = sys::aes3_capture::default();
    // SAFETY: both slices are given with their lengths, and the three are other places.
    let fits = unsafe {
        sys::aes3_capture_cells(
            samples.as_ptr(),
            samples.len(),
            octets,
            bit,
            period.map_or(0, NonZeroU64::get),
            cells.as_mut_ptr(),
            cells.len(),
            &mut found,
        )
    };
    if fits {
        Ok(found)
    } else {
        Err(Error::NoRoom)
    }
}

/// Recovers the cells of a line from a capture that comes in pieces.
///
/// A piece may have any length, and may end inside a sample of two octets. The cells of all calls, one after the other, are the packed
/// cells that [`cells_of_samples`] puts of all samples at once. A clone goes on by itself.
///
/// ```
/// use aes3::{Block, Recovery, Unit};
///
/// // A line in bit 3 of samples of one octet, four samples a cell.
/// let cells = Block::silence().encode(false)?;
/// let level = |cell: usize| (cells[cell / 64] >> (cell % 64) & 1) as u8;
/// let samples: Vec<u8> = (0..4 * aes3::BLOCK_CELLS).map(|i| level(i / 4) << 3).collect();
/// let mut packed = Vec::new();
/// let mut recovery = Recovery::new(Unit::Octets(3), None);
/// for piece in samples.chunks(1000) {
///     recovery.take(piece, |octets| packed.extend_from_slice(octets))?;
/// }
/// let found = recovery.finish(|octets| packed.extend_from_slice(octets))?;
/// assert!(found.measured > 0);
/// assert_eq!((found.cells, packed.len()), (24576, 3073));
/// # Ok::<(), aes3::Error>(())
/// ```
#[derive(Clone)]
pub struct Recovery {
    state: sys::aes3_recovery,
    unit: Unit,
    /// The first octet of a sample whose second one is still to come.
    cut: Option<u8>,
}

/// How many octets of cells are put at once, at most.
const ROOM: usize = 4096;

impl Recovery {
    /// A recovery of which no sample came. A cell is `period` 65,536ths of a sample, or is measured.
    pub fn new(unit: Unit, period: Option<NonZeroU64>) -> Recovery {
        let mut state = sys::aes3_recovery { state: [0; 813] };
        // SAFETY: the state is a recovery.
        unsafe { sys::aes3_recovery_init(&mut state, period.map_or(0, NonZeroU64::get)) };
        Recovery { state, unit, cut: None }
    }

    /// Takes samples, and gives the octets of the cells that they decide, as slices one after the other. Until a line is found there
    /// are none; then those of all samples before it come at once.
    ///
    /// # Errors
    /// [`Error::NoRoom`] if the cells of one sample are more than a recovery keeps. No capture was seen to have so many.
    pub fn take(&mut self, samples: &[u8], mut put: impl FnMut(&[u8])) -> Result<(), Error> {
        let mut rest = samples;
        if let (Some(first), [second, after @ ..]) = (self.cut, rest) {
            self.cut = None;
            rest = after;
            self.take_whole(&[first, *second], &mut put)?;
        }
        if let (Unit::Pairs(_), [whole @ .., first]) = (self.unit, rest) {
            if rest.len() % 2 == 1 {
                self.cut = Some(*first);
                rest = whole;
            }
        }
        self.take_whole(rest, &mut put)
    }

    /// The same of whole samples.
    fn take_whole(&mut self, samples: &[u8], put: &mut impl FnMut(&[u8])) -> Result<(), Error> {
        let (octets, bit) = self.unit.numbers();
        let mut cells = [0; ROOM];
        let mut rest = samples;
        while !samples.is_empty() {
            let (mut taken, mut count) = (0, 0);
            // SAFETY: both slices are given with their lengths, and the five are other places.
            let is_all = unsafe {
                sys::aes3_recovery_take(
                    &mut self.state,
                    rest.as_ptr(),
                    rest.len(),
                    octets,
                    bit,
                    &mut taken,
                    cells.as_mut_ptr(),
                    ROOM,
                    &mut count,
                )
            };
            put(&cells[..count]);
            rest = &rest[taken..];
            match (is_all, count < ROOM) {
                (true, true) => break,
                (false, true) if taken == 0 => return Err(Error::NoRoom),
                _ => (),
            }
        }
        Ok(())
    }

    /// Takes the end of the samples, gives the last octets of the packed cells, and returns what was found of the line. An octet of a
    /// sample that is cut makes no difference.
    ///
    /// # Errors
    /// [`Error::NoRoom`] if the last cells are more than a recovery keeps. No capture was seen to have so many.
    pub fn finish(mut self, mut put: impl FnMut(&[u8])) -> Result<sys::aes3_capture, Error> {
        let mut cells = [0; ROOM];
        loop {
            let mut count = 0;
            // SAFETY: the slice is given with its length, and the three are other places.
            let is_all = unsafe { sys::aes3_recovery_finish(&mut self.state, cells.as_mut_ptr(), ROOM, &mut count) };
            if !is_all && count < ROOM {
                return Err(Error::NoRoom);
            }
            put(&cells[..count]);
            if is_all {
                return Ok(self.figures());
            }
        }
    }

    /// What was found of the line so far. `octets` says how many octets were given.
    pub fn figures(&self) -> sys::aes3_capture {
        let mut found = sys::aes3_capture::default();
        // SAFETY: both are other places.
        unsafe { sys::aes3_recovery_figures(&self.state, &mut found) };
        found
    }
}

impl fmt::Debug for Recovery {
    fn fmt(&self, to: &mut fmt::Formatter<'_>) -> fmt::Result {
        to.debug_struct("Recovery").field("unit", &self.unit).field("figures", &self.figures()).finish()
    }
}
