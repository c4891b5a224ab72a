//! Holds what a scan gives its app: the page, or what to do next.

use std::error::Error;
use std::fmt;

use crate::{Answer, PageId, MOST_ROWS};

/// A page as read, in the buffers of its scan. Scan on until it is confirmed.
#[derive(Clone, Copy, Debug, PartialEq, Eq)]
pub struct Page<'a> {
    /// Which page it is.
    pub id: PageId,
    /// The nL bytes of the page; symbol k is bytes kL to kL+L-1.
    pub bytes: &'a [u8],
    /// How many rows were read. A frame that is held, or shown again, is one row.
    pub rows: usize,
    /// How many of them are kept.
    pub rank: usize,
    /// How many of them agree with the page.
    pub agreement: usize,
    /// Whether every picked row has a use: exactly then no single misread row can have made the
    /// page wrong. See [what is proved of it](crate#when-to-believe-a-page), and what is not.
    pub confirmed: bool,
}

impl Page<'_> {
    /// How many rows agree with the page beyond the n picked ones, which always do.
    pub fn beyond(&self) -> usize {
        self.agreement - usize::from(self.id.n)
    }

    /// How many rows do not agree with the page: misread, or from another version of it. A frame
    /// that is held, or shown again, is one row here too.
    ///
    /// There are some exactly where the rank is over n, and then the page is confirmed. So where
    /// there are none, this says nothing about the page.
    pub fn disagreeing(&self) -> usize {
        self.rows - self.agreement
    }
}

/// Both versions of a page, as far as the frames settle them.
#[derive(Clone, Copy, Debug, PartialEq, Eq)]
pub struct Versions<'a> {
    /// The page that all rows give: either version, or neither.
    pub page: Page<'a>,
    /// What the rows give that do not agree with it.
    pub other: Other<'a>,
}

/// What the rows give that do not agree with a page.
#[derive(Clone, Copy, Debug, PartialEq, Eq)]
pub enum Other<'a> {
    /// There are none: every row agrees with the page.
    None,
    /// A page of their own: a second version, if they were not misread. Its rows, its agreement and
    /// whether it is confirmed are theirs alone.
    Page(Page<'a>),
    /// No page: they were misread, or are too few or too mixed yet for a version of their own.
    Unsettled(Next),
}

/// What to do where a reading gives no page.
#[derive(Clone, Copy, Debug, PartialEq, Eq)]
pub enum Next {
    /// No good frame yet, or answer 5 or 7.
    ScanMore,
    /// Answer 6: two versions, or misreadings, have equal weight.
    ScanAgain,
    /// No further frame can help: the list is full, or the expected n or L is out of range.
    StartAnew,
}

impl Next {
    /// What this answer, to so many rows, asks for.
    pub(crate) fn after(answer: Answer, rows: usize) -> Self {
        let full = rows == MOST_ROWS;
        match answer {
            Answer::Few { .. } | Answer::Singular { .. } if !full => Next::ScanMore,
            Answer::Tie { .. } if !full => Next::ScanAgain,
            _ => Next::StartAnew,
        }
    }
}

impl fmt::Display for Next {
    fn fmt(&self, f: &mut fmt::Formatter) -> fmt::Result {
        f.write_str(match self {
            Next::ScanMore => "the frames do not settle the page yet: scan more",
            Next::ScanAgain => {
                "the frames balance: scan again, until one version outweighs the other"
            }
            Next::StartAnew => "no further frame can settle the page: start a new scan",
        })
    }
}

impl Error for Next {}
