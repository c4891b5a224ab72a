//! Holds frame reading in types: a good frame, or why it is refused.

use std::error::Error;
use std::fmt;

use crate::boundary;
use crate::PageId;

/// What a good frame says.
#[derive(Clone, Copy, Debug, PartialEq, Eq)]
pub struct Frame<'a> {
    /// Which page it is a frame of.
    pub id: PageId,
    /// The seed that its constraint is drawn from.
    pub seed: u32,
    /// The payload: that part of the frame itself, not copied.
    pub payload: &'a [u8],
}

/// Why a frame is refused. The place is an offset in the frame: of the bad byte, where one is bad.
#[derive(Clone, Copy, Debug, PartialEq, Eq)]
pub enum FrameRefusal {
    /// 11: the frame ends inside a field.
    Short {
        /// How many bytes the frame has: the offset of the first that is missing.
        place: usize,
    },
    /// 12: a field has another tag than the next one in order.
    WrongTag {
        /// The offset of the tag, where the field starts.
        place: usize,
    },
    /// 13: a field has another length than its tag asks for.
    WrongLength {
        /// The offset of the first length byte, behind the tag.
        place: usize,
    },
    /// 14: n or L is out of range.
    WrongShape {
        /// Where the field of n and L starts.
        place: usize,
    },
    /// 15: bytes follow the last field.
    Trailing {
        /// The offset of the first extra byte.
        place: usize,
    },
}

impl FrameRefusal {
    /// Document 01's number, 11 to 15.
    pub fn number(self) -> u8 {
        match self {
            FrameRefusal::Short { .. } => 11,
            FrameRefusal::WrongTag { .. } => 12,
            FrameRefusal::WrongLength { .. } => 13,
            FrameRefusal::WrongShape { .. } => 14,
            FrameRefusal::Trailing { .. } => 15,
        }
    }

    /// The offset that the refusal points at.
    pub fn place(self) -> usize {
        match self {
            FrameRefusal::Short { place }
            | FrameRefusal::WrongTag { place }
            | FrameRefusal::WrongLength { place }
            | FrameRefusal::WrongShape { place }
            | FrameRefusal::Trailing { place } => place,
        }
    }

    /// The refusal with this number; None if it is not one of a frame.
    pub(crate) fn of(number: u8, place: usize) -> Option<Self> {
        match number {
            11 => Some(FrameRefusal::Short { place }),
            12 => Some(FrameRefusal::WrongTag { place }),
            13 => Some(FrameRefusal::WrongLength { place }),
            14 => Some(FrameRefusal::WrongShape { place }),
            15 => Some(FrameRefusal::Trailing { place }),
            _ => None,
        }
    }
}

impl fmt::Display for FrameRefusal {
    fn fmt(&self, f: &mut fmt::Formatter) -> fmt::Result {
        let reason = match self {
            FrameRefusal::Short { .. } => "the frame ends inside a field",
            FrameRefusal::WrongTag { .. } => "a field has a wrong tag",
            FrameRefusal::WrongLength { .. } => "a field has a wrong length",
            FrameRefusal::WrongShape { .. } => "n or L is out of range",
            FrameRefusal::Trailing { .. } => "bytes follow the last field",
        };
        write!(f, "refused {} at {}: {reason}", self.number(), self.place())
    }
}

impl Error for FrameRefusal {}

/// Reads a frame.
///
/// ```
/// use mekorvat::{read_frame, FrameRefusal};
///
/// let frame = [1, 0, 4, 0, 0, 0, 5, 2, 0, 2, 1, 1, 3, 0, 4, 0, 0, 0, 2, 4, 0, 1, 9];
/// let read = read_frame(&frame)?;
/// assert_eq!((read.id.page_number, read.id.n, read.id.l), (5, 1, 1));
/// assert_eq!((read.seed, read.payload), (2, &frame[22..]));
///
/// let refusal = read_frame(&frame[..20]).unwrap_err();
/// assert_eq!(refusal, FrameRefusal::Short { place: 20 });
/// assert_eq!(refusal.number(), 11);
/// # Ok::<(), FrameRefusal>(())
/// ```
pub fn read_frame(frame: &[u8]) -> Result<Frame<'_>, FrameRefusal> {
    let (mut place, mut page_number, mut n, mut l, mut seed, mut offset) = (0, 0, 0, 0, 0, 0);
    let number = boundary::read_frame(
        frame,
        &mut place,
        &mut page_number,
        &mut n,
        &mut l,
        &mut seed,
        &mut offset,
    );
    if number == 0 {
        return Ok(Frame {
            id: PageId { page_number, n, l },
            seed,
            payload: &frame[offset..offset + usize::from(l)],
        });
    }
    let refusal = FrameRefusal::of(number, place);
    Err(refusal.expect("a frame is refused by 11 to 15, which is proved"))
}
