//! Holds which rows of a list count: all but those that repeat an earlier one, as a held frame does.

/// The first row that the row at this arrival number repeats: an earlier one that is equal to it in
/// seed, constraint and payload. None where it repeats none, or where there is no such row.
///
/// A repeat is never kept, and adds to no uses and no agreement. It still is one of the 512 rows
/// that a list may have.
///
/// ```
/// use mekorvat::{counted, lay, repeat_of, PageId};
///
/// // Three good readings of one frame that was held on the screen, and one of the next frame.
/// let held = [1, 0, 4, 0, 0, 0, 5, 2, 0, 2, 1, 1, 3, 0, 4, 0, 0, 0, 1, 4, 0, 1, 9];
/// let next = [1, 0, 4, 0, 0, 0, 5, 2, 0, 2, 1, 1, 3, 0, 4, 0, 0, 0, 2, 4, 0, 1, 9];
/// let id = PageId { page_number: 5, n: 1, l: 1 };
/// let mut list = [0; 4 * 13];
/// for (arrival, frame) in [held, held, next, held].iter().enumerate() {
///     lay(frame, id, arrival, &mut list)?;
/// }
/// assert_eq!(repeat_of(1, &list, 0), None);
/// assert_eq!(repeat_of(1, &list, 1), Some(0));
/// assert_eq!(repeat_of(1, &list, 2), None); // its payload is the same, but its seed is not
/// assert_eq!(repeat_of(1, &list, 3), Some(0));
/// assert_eq!(counted(1, &list), 2);
/// # Ok::<(), mekorvat::LayRefusal>(())
/// ```
pub fn repeat_of(l: u8, list: &[u8], arrival: usize) -> Option<usize> {
    let row = list.chunks_exact(row_bytes(l)).nth(arrival)?;
    place_of(row, &list[..arrival * row_bytes(l)])
}

/// The arrival number of the first row of a list that is equal to this one.
pub(crate) fn place_of(row: &[u8], list: &[u8]) -> Option<usize> {
    // Seeds alone first: four bytes are compared at once, and mostly tell.
    let seed = |row: &[u8]| row.first_chunk::<4>().copied();
    let mut rows = list.chunks_exact(row.len());
    rows.position(|other| seed(other) == seed(row) && other == row)
}

/// How many rows of a list count: those that repeat no earlier one.
///
/// Where a reading gives a page, so many rows less the agreement count and do not agree with it.
/// Each row is compared with all before it; for a list that grows, [`repeat_of`] asks of the last
/// row only.
pub fn counted(l: u8, list: &[u8]) -> usize {
    let rows = list.len() / row_bytes(l);
    let counts = |&arrival: &usize| repeat_of(l, list, arrival).is_none();
    (0..rows).filter(counts).count()
}

/// The bytes of a row in a list, 12+L: its seed, its constraint and its payload.
pub(crate) fn row_bytes(l: u8) -> usize {
    12 + usize::from(l)
}
