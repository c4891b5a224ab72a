//! Holds laying in types: a frame's row goes into a list, or why it does not.

use std::error::Error;
use std::fmt;

use crate::boundary;
use crate::{FrameRefusal, PageId};

/// Why a frame is not laid; the list is then as it was.
#[derive(Clone, Copy, Debug, PartialEq, Eq)]
pub enum LayRefusal {
    /// 1: the expected n or L is out of range.
    Shape,
    /// 11 to 15: the frame breaks the layout.
    Frame(FrameRefusal),
    /// 16: a good frame of another page number, n or L than expected.
    OtherPage,
    /// 2: the arrival number is over 511.
    List,
    /// 3: the list is too short for that place.
    Room,
}

impl LayRefusal {
    /// Document 01's number.
    pub fn number(self) -> u8 {
        match self {
            LayRefusal::Shape => 1,
            LayRefusal::Frame(refusal) => refusal.number(),
            LayRefusal::OtherPage => 16,
            LayRefusal::List => 2,
            LayRefusal::Room => 3,
        }
    }

    /// The frame's place for 11 to 15, else 0.
    pub fn place(self) -> usize {
        match self {
            LayRefusal::Frame(refusal) => refusal.place(),
            _ => 0,
        }
    }

    fn of(number: u8, place: usize) -> Option<Self> {
        match number {
            1 => Some(LayRefusal::Shape),
            16 => Some(LayRefusal::OtherPage),
            2 => Some(LayRefusal::List),
            3 => Some(LayRefusal::Room),
            _ => FrameRefusal::of(number, place).map(LayRefusal::Frame),
        }
    }
}

impl From<FrameRefusal> for LayRefusal {
    fn from(refusal: FrameRefusal) -> Self {
        LayRefusal::Frame(refusal)
    }
}

impl fmt::Display for LayRefusal {
    fn fmt(&self, f: &mut fmt::Formatter) -> fmt::Result {
        let reason = match self {
            LayRefusal::Frame(refusal) => return refusal.fmt(f),
            LayRefusal::Shape => "the expected n or L is out of range",
            LayRefusal::OtherPage => "the frame is of another page",
            LayRefusal::List => "a list has at most 512 rows",
            LayRefusal::Room => "the list is too short for the row",
        };
        write!(f, "refused {} at {}: {reason}", self.number(), self.place())
    }
}

impl Error for LayRefusal {}

/// Lays a frame of the expected page into the list, at byte (12+L) times the arrival number.
///
/// An arrival number is a place in the list. The row there is the frame's seed, the constraint drawn
/// from it, and the payload. No other byte of the list changes, and the list may
/// have any length that reaches the row.
///
/// ```
/// use mekorvat::{lay, LayRefusal, PageId};
///
/// let frame = [1, 0, 4, 0, 0, 0, 5, 2, 0, 2, 1, 1, 3, 0, 4, 0, 0, 0, 2, 4, 0, 1, 9];
/// let expected = PageId { page_number: 5, n: 1, l: 1 };
/// let mut list = [170; 28];
/// lay(&frame, expected, 1, &mut list)?;
/// assert_eq!(list[..13], [170; 13]);
/// assert_eq!(list[13..26], [0, 0, 0, 2, 0, 0, 0, 0, 0, 0, 0, 1, 9]);
/// assert_eq!(list[26..], [170; 2]);
///
/// assert_eq!(lay(&frame, expected, 2, &mut list), Err(LayRefusal::Room));
/// # Ok::<(), LayRefusal>(())
/// ```
pub fn lay(
    frame: &[u8],
    expected: PageId,
    arrival: usize,
    list: &mut [u8],
) -> Result<(), LayRefusal> {
    let PageId { page_number, n, l } = expected;
    let mut place = 0;
    let number = boundary::lay(frame, page_number, n, l, arrival, list, &mut place);
    if number == 0 {
        return Ok(());
    }
    let refusal = LayRefusal::of(number, place);
    Err(refusal.expect("a laying is refused by 1, 2, 3 or 11 to 16, which is proved"))
}
