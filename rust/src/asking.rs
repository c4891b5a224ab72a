//! Holds asking in types: what a reading of a store's rows gives, from the working that it keeps.

use std::error::Error;
use std::fmt;

use crate::{boundary, Answer, StoreRefusal, STORE_BYTES};

/// What a store was asked for.
#[derive(Clone, Copy, Debug, PartialEq, Eq)]
pub struct Asked {
    /// What [`read_list`](crate::read_list) answers of the store's rows: a page, or 5, 6 or 7.
    pub answer: Answer,
    /// How many rows the store accepted, repeats too.
    pub rows: usize,
}

/// Why a store is not asked; the lent buffers are then as they were.
#[derive(Clone, Copy, Debug, PartialEq, Eq)]
pub enum AskRefusal {
    /// 3 or 10: the bytes are no store.
    Store(StoreRefusal),
    /// 3: another lent buffer is too short.
    Room {
        /// For how many rows there must be room.
        rows: usize,
    },
}

impl AskRefusal {
    /// Document 02's number, 3 or 10.
    pub fn number(self) -> u8 {
        match self {
            AskRefusal::Store(refusal) => refusal.number(),
            AskRefusal::Room { .. } => 3,
        }
    }

    /// How many rows the store accepted; 0 where it is no store.
    pub fn rows(self) -> usize {
        match self {
            AskRefusal::Store(_) => 0,
            AskRefusal::Room { rows } => rows,
        }
    }
}

impl fmt::Display for AskRefusal {
    fn fmt(&self, f: &mut fmt::Formatter) -> fmt::Result {
        match self {
            AskRefusal::Store(refusal) => refusal.fmt(f),
            AskRefusal::Room { rows } => {
                write!(f, "refused 3: a buffer lent for {rows} rows is too short")
            }
        }
    }
}

impl Error for AskRefusal {}

/// Asks a store for what [`read_list`](crate::read_list) gives of its rows. The store stays as it
/// is.
///
/// Lent is what a reading is lent, list apart: for m rows `page` of at least nL bytes, `uses` of at
/// least 2m, `roles` of at least m, `scratch` of at least
/// [`SCRATCH_BYTES`](crate::SCRATCH_BYTES). They are written as a reading writes them.
///
/// That answer and buffers are those of a fresh reading is proved for every store that was made by
/// [`open`](crate::open) and [`offer`](crate::offer). Of other bytes no more is promised than that
/// there is an answer, and that nothing is written but what a reading of so many rows writes. The
/// page can then be wrong, though every row is right.
///
/// ```
/// use mekorvat::{ask, offer, open, Answer, AskRefusal, PageId, SCRATCH_BYTES, STORE_BYTES};
///
/// let mut store = vec![0; STORE_BYTES];
/// open(&mut store, PageId { page_number: 5, n: 1, l: 1 }).unwrap();
/// let (mut page, mut uses, mut roles) = ([0; 1], [0; 6], [0; 3]);
/// let mut scratch = vec![0; SCRATCH_BYTES];
/// let mut answers = Vec::new();
/// // Seed and payload of three frames; the first was misread.
/// for (seed, payload) in [(0, 7), (1, 9), (2, 9)] {
///     let frame = [1, 0, 4, 0, 0, 0, 5, 2, 0, 2, 1, 1, 3, 0, 4, 0, 0, 0, seed, 4, 0, 1, payload];
///     offer(&mut store, &frame).unwrap();
///     answers.push(ask(&store, &mut page, &mut uses, &mut roles, &mut scratch)?.answer);
/// }
/// assert_eq!(answers[0], Answer::Page { rank: 1, agreement: 1 });
/// assert_eq!(answers[1], Answer::Tie { rank: 2 });
/// assert_eq!(answers[2], Answer::Page { rank: 2, agreement: 2 });
/// assert_eq!((page, roles), ([9], [1, 2, 0]));
///
/// let refused = ask(&store, &mut page, &mut uses, &mut roles[..2], &mut scratch);
/// assert_eq!(refused, Err(AskRefusal::Room { rows: 3 }));
/// # Ok::<(), AskRefusal>(())
/// ```
pub fn ask(
    store: &[u8],
    page: &mut [u8],
    uses: &mut [u8],
    roles: &mut [u8],
    scratch: &mut [u8],
) -> Result<Asked, AskRefusal> {
    let (mut rank, mut place, mut agreement, mut rows) = (0, 0, 0, 0);
    let number = boundary::ask(
        store,
        page,
        uses,
        roles,
        scratch,
        &mut rank,
        &mut place,
        &mut agreement,
        &mut rows,
    );
    match number {
        3 if store.len() < STORE_BYTES => Err(AskRefusal::Store(StoreRefusal::Short)),
        10 => Err(AskRefusal::Store(StoreRefusal::Header)),
        3 => Err(AskRefusal::Room { rows }),
        _ => Ok(Asked {
            answer: Answer::of(number, rank, place, agreement),
            rows,
        }),
    }
}
