//! Holds the reading of both versions of a page that was saved twice: wish 1 of document 02.

use crate::list::{refusal, row_length, Answer};
use crate::number::*;
use crate::page;
use crate::reading::{agrees, read_list};

/// The answers of both readings, and how many rows the second list has.
#[derive(Clone, Copy, Debug, PartialEq, Eq)]
pub struct Both {
    pub first: Answer,
    pub second: Answer,
    pub rows: usize,
}

/// What is lent for the second reading; the scratch serves both.
pub struct Second<'a> {
    pub list: &'a mut [u8],
    pub page: &'a mut [u8],
    pub uses: &'a mut [u16],
    pub roles: &'a mut [u8],
}

impl Second<'_> {
    /// Whether each buffer is as long as the first reading needs its own, and the list as the first.
    fn has_room(&self, n: u8, l: u8, list: &[u8]) -> bool {
        let rows = list.len() / row_length(l);
        self.list.len() >= list.len()
            && self.page.len() >= page::length(n, l)
            && self.uses.len() >= rows
            && self.roles.len() >= rows
    }
}

/// Reads a list, and then the rows of it that do not agree with the page that it gave.
///
/// These are all of them, repeats too; the second reading finds its own repeats.
#[allow(clippy::too_many_arguments)]
pub fn read_both(
    n: u8,
    l: u8,
    list: &[u8],
    page: &mut [u8],
    uses: &mut [u16],
    roles: &mut [u8],
    second: Second,
    scratch: &mut [u8],
) -> Both {
    let alone = |first| Both {
        first,
        second: Answer::without_page(FEW, 0),
        rows: 0,
    };
    // 3 keeps its place: after 1 and 2, before 4.
    let refused = refusal(n, l, list, page, uses, roles, scratch).map(|answer| answer.number);
    if !matches!(refused, Some(SHAPE | LIST)) && !second.has_room(n, l, list) {
        return alone(Answer::without_page(ROOM, 0));
    }
    let first = read_list(n, l, list, page, uses, roles, scratch);
    if first.number != DONE {
        return alone(first);
    }
    let rows = list.chunks_exact(row_length(l));
    let given = &page[..page::length(n, l)];
    let others: Vec<u8> = rows
        .filter(|row| !agrees(row, given))
        .flatten()
        .copied()
        .collect();
    second.list[..others.len()].copy_from_slice(&others);
    Both {
        first,
        second: read_list(
            n,
            l,
            &others,
            second.page,
            second.uses,
            second.roles,
            scratch,
        ),
        rows: others.len() / row_length(l),
    }
}
