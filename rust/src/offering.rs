//! Holds offering in types: a store takes a frame's row in, or why it does not.

use std::error::Error;
use std::fmt;

use crate::{boundary, FrameRefusal, StoreRefusal, STORE_BYTES};

/// Why a frame is not taken in; the store is then as it was.
#[derive(Clone, Copy, Debug, PartialEq, Eq)]
pub enum OfferRefusal {
    /// 3 or 10: the bytes are no store.
    Store(StoreRefusal),
    /// 11 to 15: the frame breaks the layout.
    Frame(FrameRefusal),
    /// 16: a good frame of another page number, n or L than the store is open for.
    OtherPage,
    /// 2: the store has 512 rows.
    List,
}

impl OfferRefusal {
    /// Document 02's number.
    pub fn number(self) -> u8 {
        match self {
            OfferRefusal::Store(refusal) => refusal.number(),
            OfferRefusal::Frame(refusal) => refusal.number(),
            OfferRefusal::OtherPage => 16,
            OfferRefusal::List => 2,
        }
    }

    /// The frame's place for 11 to 15, else 0.
    pub fn place(self) -> usize {
        match self {
            OfferRefusal::Frame(refusal) => refusal.place(),
            _ => 0,
        }
    }

    fn of(number: u8, place: usize, length: usize) -> Option<Self> {
        match number {
            3 if length < STORE_BYTES => Some(OfferRefusal::Store(StoreRefusal::Short)),
            10 => Some(OfferRefusal::Store(StoreRefusal::Header)),
            16 => Some(OfferRefusal::OtherPage),
            2 => Some(OfferRefusal::List),
            _ => FrameRefusal::of(number, place).map(OfferRefusal::Frame),
        }
    }
}

impl fmt::Display for OfferRefusal {
    fn fmt(&self, f: &mut fmt::Formatter) -> fmt::Result {
        let reason = match self {
            OfferRefusal::Store(refusal) => return refusal.fmt(f),
            OfferRefusal::Frame(refusal) => return refusal.fmt(f),
            OfferRefusal::OtherPage => "the frame is of another page",
            OfferRefusal::List => "a store has at most 512 rows",
        };
        write!(f, "refused {} at {}: {reason}", self.number(), self.place())
    }
}

impl Error for OfferRefusal {}

/// Offers a frame to a store: its row is taken in behind those that are there.
///
/// A repeat, as a frame that is held on the screen gives, takes a row of its own, though it adds to
/// no uses and no agreement. A [`Scan`](crate::Scan) offers each row once.
///
/// ```
/// use mekorvat::{offer, open, stored, FrameRefusal, OfferRefusal, PageId, STORE_BYTES};
///
/// let mut store = vec![0; STORE_BYTES];
/// open(&mut store, PageId { page_number: 5, n: 1, l: 1 }).unwrap();
/// let mut frame = [1, 0, 4, 0, 0, 0, 5, 2, 0, 2, 1, 1, 3, 0, 4, 0, 0, 0, 2, 4, 0, 1, 9];
/// offer(&mut store, &frame)?;
/// offer(&mut store, &frame)?;
/// assert_eq!(stored(&store).unwrap().rows(), 2);
///
/// let before = store.clone();
/// let cut_off = OfferRefusal::Frame(FrameRefusal::Short { place: 20 });
/// assert_eq!(offer(&mut store, &frame[..20]), Err(cut_off));
/// frame[6] = 6;
/// assert_eq!(offer(&mut store, &frame), Err(OfferRefusal::OtherPage));
/// assert!(store == before);
/// # Ok::<(), OfferRefusal>(())
/// ```
pub fn offer(store: &mut [u8], frame: &[u8]) -> Result<(), OfferRefusal> {
    let mut place = 0;
    let number = boundary::offer(store, frame, &mut place);
    if number == 0 {
        return Ok(());
    }
    let refusal = OfferRefusal::of(number, place, store.len());
    Err(refusal.expect("an offer is refused by 2, 3, 10 or 11 to 16, which is proved"))
}
