//! Holds the reading of both versions of a page that was saved twice, over lent buffers.

use crate::{boundary, Answer};

/// The answers of both readings.
#[derive(Clone, Copy, Debug, PartialEq, Eq)]
#[must_use]
pub struct Both {
    /// The answer to the list, as [`read_list`](crate::read_list) gives it.
    pub first: Answer,
    /// The answer to the second list, the rows that do not agree with the first page; 5 with
    /// rank 0 where there is no first page.
    pub second: Answer,
    /// How many rows the second list has, repeats too.
    pub rows: usize,
}

/// What is lent for the second reading, each buffer as long as the first reading needs its own.
#[derive(Debug)]
pub struct Second<'a> {
    /// Room for the second list, as long as the first.
    pub list: &'a mut [u8],
    /// Room for its page.
    pub page: &'a mut [u8],
    /// Room for its uses, by place in the second list.
    pub uses: &'a mut [u8],
    /// Room for its roles, by place in the second list.
    pub roles: &'a mut [u8],
}

/// Reads a list, and then the rows of it that do not agree with the page that it gives.
///
/// Those rows, repeats too, are copied to the second list in their old order, and read by the same
/// rules. What is lent for the second reading stays as it is where there is no first page; the
/// scratch serves both.
///
/// ```
/// use mekorvat::{read_both, Answer, Second, SCRATCH_BYTES};
///
/// // Three rows on the one symbol there is; the first is from another version of the page.
/// let list = [
///     0, 0, 0, 0, 0, 0, 0, 0, 0, 0, 0, 1, 7, //
///     0, 0, 0, 1, 0, 0, 0, 0, 0, 0, 0, 1, 9, //
///     0, 0, 0, 2, 0, 0, 0, 0, 0, 0, 0, 1, 9,
/// ];
/// let (mut page, mut uses, mut roles) = ([0; 1], [0; 6], [0; 3]);
/// let (mut page2, mut uses2, mut roles2) = ([0; 1], [0; 6], [0; 3]);
/// let mut list2 = [0; 39];
/// let second = Second {
///     list: &mut list2,
///     page: &mut page2,
///     uses: &mut uses2,
///     roles: &mut roles2,
/// };
/// let mut scratch = vec![0; SCRATCH_BYTES];
/// let both = read_both(1, 1, &list, &mut page, &mut uses, &mut roles, second, &mut scratch);
///
/// assert_eq!(both.first, Answer::Page { rank: 2, agreement: 2 });
/// assert_eq!(both.second, Answer::Page { rank: 1, agreement: 1 });
/// assert_eq!((page, page2, both.rows), ([9], [7], 1));
/// assert!(both.first.confirmed(&uses, &roles));
/// assert!(!both.second.confirmed(&uses2, &roles2)); // one row says so, and none checks it
/// assert_eq!(list2[..13], list[..13]);
/// ```
// One for each thing lent, as in `read_list`.
#[allow(clippy::too_many_arguments)]
pub fn read_both(
    n: u8,
    l: u8,
    list: &[u8],
    page: &mut [u8],
    uses: &mut [u8],
    roles: &mut [u8],
    second: Second,
    scratch: &mut [u8],
) -> Both {
    let mut numbers = [0; 8];
    let number = boundary::read_both(
        n,
        l,
        list,
        page,
        uses,
        roles,
        second.list,
        second.page,
        second.uses,
        second.roles,
        scratch,
        &mut numbers,
    );
    let [rank, place, agreement, number2, rank2, place2, agreement2, rows] =
        numbers.map(|number| number as usize);
    Both {
        first: Answer::of(number, rank, place, agreement),
        second: Answer::of(number2 as u8, rank2, place2, agreement2),
        rows,
    }
}
