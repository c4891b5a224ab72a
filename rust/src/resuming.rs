//! Holds how a scan goes on with an old store: its bytes must be those which its rows give.

use std::error::Error;
use std::fmt;

use crate::{offer, open, stored, PageId, Scan, Stored, STORE_BYTES};

/// Why a scan does not go on with these bytes.
#[derive(Clone, Copy, Debug, PartialEq, Eq)]
pub enum ResumeRefusal {
    /// They are more or fewer than [`STORE_BYTES`].
    Length {
        /// How many they are.
        bytes: usize,
    },
    /// What stands there for n, L or the number of rows is out of range.
    Header,
    /// They are not what opening a store and offering its rows gives: they were changed, or another
    /// version of the library wrote them.
    Changed,
}

impl fmt::Display for ResumeRefusal {
    fn fmt(&self, f: &mut fmt::Formatter) -> fmt::Result {
        match self {
            ResumeRefusal::Length { bytes } => {
                write!(f, "a store has {STORE_BYTES} bytes, and these are {bytes}")
            }
            ResumeRefusal::Header => {
                f.write_str("this is no store: its n, L or number of rows is out of range")
            }
            ResumeRefusal::Changed => f.write_str(
                "this is no store as scanning leaves it: its rows and its working do not fit",
            ),
        }
    }
}

impl Error for ResumeRefusal {}

impl Scan {
    /// Goes on with the store of an earlier scan.
    ///
    /// Its rows are offered anew, to a store of this scan's own, so that what is proved of stores
    /// that were made by these calls holds of this one. The bytes must be that store, every one of
    /// them. So a file that was damaged or changed is refused, unless what it became is a store as
    /// well, of other frames or another page: that this is the one which was saved, bytes alone
    /// can't tell. Another page number is taken, for one.
    ///
    /// What the earlier scan [`held`](Scan::held) is not in its store. A store that was offered
    /// repeats, as no scan does, is gone on with without them, and they count as held.
    ///
    /// ```
    /// use mekorvat::{ResumeRefusal, Scan};
    ///
    /// let mut scan = Scan::new();
    /// let mut frame = [1, 0, 4, 0, 0, 0, 5, 2, 0, 2, 1, 1, 3, 0, 4, 0, 0, 0, 0, 4, 0, 1, 7];
    /// scan.offer(&frame).unwrap(); // misread
    /// (frame[18], frame[22]) = (1, 9);
    /// scan.offer(&frame).unwrap();
    /// let mut saved = scan.store().unwrap().to_vec();
    /// drop(scan); // the phone goes off
    ///
    /// let mut scan = Scan::resume(&saved)?;
    /// assert_eq!((scan.expected().unwrap().page_number, scan.rows()), (5, 2));
    /// frame[18] = 2;
    /// scan.offer(&frame).unwrap();
    /// assert_eq!(scan.read().unwrap().bytes, [9]);
    ///
    /// // The payload of the first row is changed in the file, from 7 to 6.
    /// saved[16 + 12] ^= 1;
    /// assert_eq!(Scan::resume(&saved).unwrap_err(), ResumeRefusal::Changed);
    /// # Ok::<(), ResumeRefusal>(())
    /// ```
    pub fn resume(store: &[u8]) -> Result<Self, ResumeRefusal> {
        let (id, frames) = frames_of(store)?;
        let mut scan = Scan::of_page(id);
        for frame in &frames {
            let offered = scan.offer(frame);
            offered.expect("a store of this page has taken it in");
        }
        Ok(scan)
    }
}

/// The page of a store, and a frame for each of its rows, if opening and offering these gives the
/// store byte for byte.
///
/// What is in a store follows from its page and its rows. So each store that was made by these
/// calls passes, and what passes is a store that they can make.
fn frames_of(store: &[u8]) -> Result<(PageId, Vec<Vec<u8>>), ResumeRefusal> {
    if store.len() != STORE_BYTES {
        let bytes = store.len();
        return Err(ResumeRefusal::Length { bytes });
    }
    let Ok(Stored { id, list }) = stored(store) else {
        return Err(ResumeRefusal::Header);
    };
    let rows = list.chunks_exact(id.row_bytes());
    let frames: Vec<Vec<u8>> = rows.map(|row| frame_of(id, row)).collect();
    let mut again = vec![0; STORE_BYTES];
    let opened = open(&mut again, id).is_ok();
    let offered = frames.iter().all(|frame| offer(&mut again, frame).is_ok());
    if opened && offered && again == store {
        Ok((id, frames))
    } else {
        Err(ResumeRefusal::Changed)
    }
}

/// The frame with a row's seed and payload. It gives the constraint that the seed names, whatever
/// stands in the row.
fn frame_of(id: PageId, row: &[u8]) -> Vec<u8> {
    let fields: [(u8, &[u8]); 4] = [
        (1, &id.page_number.to_be_bytes()),
        (2, &[id.n, id.l]),
        (3, &row[..4]),
        (4, &row[12..]),
    ];
    let field = |(tag, value): (u8, &[u8])| [&[tag, 0, value.len() as u8], value].concat();
    fields.map(field).concat()
}
