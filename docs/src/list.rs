//! Holds what both list readers share: the answer, refusals 1 to 4 and the record of the kept rows.

use crate::number::*;
use crate::page::{self, in_shape, strays};

pub const MOST_ROWS: usize = 512;
pub const SCRATCH: usize = 32_768;

/// The uses entry of a row that is not kept.
const NO_USES: u16 = 65_535;

/// The answer to a list reading.
#[derive(Clone, Copy, Debug, Default, PartialEq, Eq)]
pub struct Answer {
    pub number: u8,
    pub rank: usize,
    /// The arrival number of the first stray row under 4, otherwise 0.
    pub place: usize,
    pub agreement: usize,
}

impl Answer {
    /// An answer other than 0 and 4.
    pub fn without_page(number: u8, rank: usize) -> Self {
        Answer {
            number,
            rank,
            ..Answer::default()
        }
    }
}

/// 12+L, the bytes of a row in a list.
pub fn row_length(l: u8) -> usize {
    12 + usize::from(l)
}

/// The seed of a row in a list, and what takes part in elimination: constraint and payload.
pub fn split_seed(row: &[u8]) -> (u32, &[u8]) {
    let (seed, rest) = row.split_first_chunk().expect("a row has 12+L bytes");
    (u32::from_be_bytes(*seed), rest)
}

/// The constraint and the payload of a row in a list.
pub fn split(row: &[u8]) -> (u64, &[u8]) {
    let (_, rest) = split_seed(row);
    let (constraint, payload) = rest.split_first_chunk().expect("a row has 12+L bytes");
    (u64::from_be_bytes(*constraint), payload)
}

/// The first of the refusals 1 to 4 that applies.
pub fn refusal(
    n: u8,
    l: u8,
    list: &[u8],
    page: &[u8],
    uses: &[u16],
    roles: &[u8],
    scratch: &[u8],
) -> Option<Answer> {
    let refused = |number| Some(Answer::without_page(number, 0));
    if !in_shape(n, l) {
        return refused(SHAPE);
    }
    let mut rows = list.chunks_exact(row_length(l));
    let m = rows.len();
    if !rows.remainder().is_empty() || m > MOST_ROWS {
        return refused(LIST);
    }
    if page.len() < page::length(n, l)
        || uses.len() < m
        || roles.len() < m
        || scratch.len() < SCRATCH
    {
        return refused(ROOM);
    }
    let place = rows.position(|row| strays(n, split(row).0))?;
    Some(Answer {
        number: STRAY,
        place,
        ..Answer::default()
    })
}

/// Writes what 5, 6, 7 and 0 all write: uses and roles of m rows, none picked yet, and the scratch.
///
/// `kept` has the arrival number and `counts` the uses of each kept place.
pub fn record(
    m: usize,
    kept: &[usize],
    counts: &[u16],
    uses: &mut [u16],
    roles: &mut [u8],
    scratch: &mut [u8],
) {
    uses[..m].fill(NO_USES);
    roles[..m].fill(0);
    for (&arrival, &count) in kept.iter().zip(counts) {
        uses[arrival] = count;
        roles[arrival] = 1;
    }
    scratch[..SCRATCH].fill(0);
}
