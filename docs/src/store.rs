//! Holds the store of wish 5 of document 02: the rows accepted so far, which asking reads as a fresh list. No working is
//! kept between frames, as a check on one that is.

use crate::frame::lay;
use crate::list::{row_length, Answer, MOST_ROWS};
use crate::number::*;
use crate::page::in_shape;
use crate::reading::read_list;

/// The bytes that a store asks for.
pub const STORE: usize = 65_536;

/// What the header of a store says: what it is open for, and how many rows it has.
#[derive(Clone, Copy, Debug, Default, PartialEq, Eq)]
pub struct Header {
    pub page_number: u32,
    pub n: u8,
    pub l: u8,
    pub rows: u16,
}

impl Header {
    fn in_range(self) -> bool {
        in_shape(self.n, self.l) && usize::from(self.rows) <= MOST_ROWS
    }
}

/// A store in a buffer of so many lent bytes.
#[derive(Clone, Debug, PartialEq, Eq)]
pub struct Store {
    pub length: usize,
    pub header: Header,
    rows: Vec<Vec<u8>>,
}

impl Store {
    /// A buffer that holds no store yet, with whatever its bytes say where a header would be.
    pub fn lent(length: usize, header: Header) -> Self {
        Store {
            length,
            header,
            rows: Vec::new(),
        }
    }

    /// The rows accepted so far, as a list.
    pub fn list(&self) -> Vec<u8> {
        self.rows.concat()
    }

    /// "opening gives 1 then 3"; "Opening again forgets everything."
    pub fn open(&mut self, page_number: u32, n: u8, l: u8) -> u8 {
        if !in_shape(n, l) {
            return SHAPE;
        }
        if self.length < STORE {
            return ROOM;
        }
        self.header = Header {
            page_number,
            n,
            l,
            rows: 0,
        };
        self.rows.clear();
        DONE
    }

    /// The first of 3 and 10 that applies to the store itself.
    pub fn refusal(&self) -> Option<u8> {
        if self.length < STORE {
            return Some(ROOM);
        }
        (!self.header.in_range()).then_some(HEADER)
    }

    /// "an offer, with places as in laying, gives 3, 10, 11 to 16, then 2 at the 513th row"
    pub fn offer(&mut self, frame: &[u8]) -> (u8, usize) {
        if let Some(number) = self.refusal() {
            return (number, 0);
        }
        let Header {
            page_number,
            n,
            l,
            rows,
        } = self.header;
        let mut row = vec![0; row_length(l)];
        let laid = lay(frame, page_number, n, l, 0, &mut row);
        if laid.0 != DONE {
            return laid;
        }
        if usize::from(rows) == MOST_ROWS {
            return (LIST, 0);
        }
        self.rows.push(row);
        self.header.rows += 1;
        (DONE, 0)
    }

    /// "asking gives 3 for the store, 10, 3 for the rest, then 5 to 7"; or the page. Also how many rows are accepted, which
    /// is 0 where the store itself is refused.
    pub fn ask(
        &self,
        page: &mut [u8],
        uses: &mut [u16],
        roles: &mut [u8],
        scratch: &mut [u8],
    ) -> (Answer, usize) {
        if let Some(number) = self.refusal() {
            return (Answer::without_page(number, 0), 0);
        }
        let Header { n, l, .. } = self.header;
        let answer = read_list(n, l, &self.list(), page, uses, roles, scratch);
        (answer, self.rows.len())
    }
}
