//! Holds what all frames of one page have in common, and the sizes that follow from it.

use crate::repeats::row_bytes;

/// The most rows that a list may have.
pub const MOST_ROWS: usize = 512;

/// The bytes of the longest page: 64 symbols of 32 bytes.
pub const LONGEST_PAGE: usize = 2_048;

/// The bytes of the longest row in a list, whose payload has 32.
pub const LONGEST_ROW: usize = 44;

/// The bytes of scratch that a list reading asks for.
pub const SCRATCH_BYTES: usize = 32_768;

/// The page number and the shape of a page: frames that differ in one of them never mix.
#[derive(Clone, Copy, Debug, PartialEq, Eq, Hash)]
pub struct PageId {
    /// The page number.
    pub page_number: u32,
    /// How many symbols the page has, 1 to 64.
    pub n: u8,
    /// How many bytes a symbol has, 1 to 32: document 01's L.
    pub l: u8,
}

impl PageId {
    /// Whether there can be such a page.
    pub(crate) fn in_range(self) -> bool {
        (1..=64).contains(&self.n) && (1..=32).contains(&self.l)
    }

    /// The bytes of the page, nL.
    pub fn page_bytes(self) -> usize {
        usize::from(self.n) * usize::from(self.l)
    }

    /// The bytes of a row in a list, 12+L: the seed, the constraint and the payload.
    pub fn row_bytes(self) -> usize {
        row_bytes(self.l)
    }
}
