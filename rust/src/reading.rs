//! Holds list reading in types: the answers, and the reading over lent buffers.

use std::fmt;

use crate::{boundary, marks, Mark};

/// The answer of a list reading; see document 01's table "Answer numbers of a reading".
#[derive(Clone, Copy, Debug, PartialEq, Eq)]
#[must_use]
pub enum Answer {
    /// 0: the page is in the first nL bytes of its room. [`confirmed`](Answer::confirmed) says
    /// whether a single misread row can have made it wrong.
    Page {
        /// How many rows are kept.
        rank: usize,
        /// How many rows agree with the page, repeats not counted.
        agreement: usize,
    },
    /// 1: n or L is out of range.
    Shape,
    /// 2: the list's length is no multiple of 12+L, or it has over 512 rows.
    List,
    /// 3: a lent buffer is too short.
    Room,
    /// 4: a constraint has a bit worth 2^n or more.
    Stray {
        /// The arrival number of the first such row.
        place: usize,
    },
    /// 5: the rank is below n.
    Few {
        /// How many rows are kept.
        rank: usize,
    },
    /// 6: the rank is over n, and the pick is not unique.
    Tie {
        /// How many rows are kept.
        rank: usize,
    },
    /// 7: the picked constraints are dependent.
    Singular {
        /// How many rows are kept.
        rank: usize,
    },
}

impl Answer {
    /// Document 01's number, 0 to 7.
    pub fn number(self) -> u8 {
        match self {
            Answer::Page { .. } => 0,
            Answer::Shape => 1,
            Answer::List => 2,
            Answer::Room => 3,
            Answer::Stray { .. } => 4,
            Answer::Few { .. } => 5,
            Answer::Tie { .. } => 6,
            Answer::Singular { .. } => 7,
        }
    }

    /// How many rows are kept; 0 under 1 to 4.
    pub fn rank(self) -> usize {
        match self {
            Answer::Page { rank, .. }
            | Answer::Few { rank }
            | Answer::Tie { rank }
            | Answer::Singular { rank } => rank,
            Answer::Shape | Answer::List | Answer::Room | Answer::Stray { .. } => 0,
        }
    }

    /// The arrival number of the first stray row under 4, else 0.
    pub fn place(self) -> usize {
        match self {
            Answer::Stray { place } => place,
            _ => 0,
        }
    }

    /// How many rows agree with the page, repeats not counted; 0 where there is none.
    pub fn agreement(self) -> usize {
        match self {
            Answer::Page { agreement, .. } => agreement,
            _ => 0,
        }
    }

    /// Whether there is a page and every picked row has a use, by the marks that the reading left:
    /// exactly then no single misread row can have made the page wrong. See
    /// [what is proved of it](crate#when-to-believe-a-page), and what is not.
    ///
    /// The buffers may be longer than the reading asked for. Where they do not have the marks of
    /// all rows, a page does not count as confirmed.
    pub fn confirmed(self, uses: &[u8], roles: &[u8]) -> bool {
        let Answer::Page { rank, .. } = self else {
            return false;
        };
        let kept = marks(uses, roles).filter(|&mark| mark != Mark::NotKept);
        // What follows the last kept row is none of the reading's.
        let sound = kept.take(rank).filter(|mark| !mark.alone());
        sound.count() == rank
    }

    /// Whether uses and roles are filled and the scratch is cleared: under 0, 5, 6 and 7.
    pub fn fills_marks(self) -> bool {
        match self {
            Answer::Shape | Answer::List | Answer::Room | Answer::Stray { .. } => false,
            Answer::Page { .. }
            | Answer::Few { .. }
            | Answer::Tie { .. }
            | Answer::Singular { .. } => true,
        }
    }

    /// The answer that the boundary gives as these numbers.
    pub(crate) fn of(number: u8, rank: usize, place: usize, agreement: usize) -> Self {
        match number {
            0 => Answer::Page { rank, agreement },
            1 => Answer::Shape,
            2 => Answer::List,
            3 => Answer::Room,
            4 => Answer::Stray { place },
            5 => Answer::Few { rank },
            6 => Answer::Tie { rank },
            7 => Answer::Singular { rank },
            _ => unreachable!("a reading is answered by 0 to 7, which is proved"),
        }
    }
}

impl fmt::Display for Answer {
    fn fmt(&self, f: &mut fmt::Formatter) -> fmt::Result {
        let meaning = match self {
            Answer::Page { .. } => "the page is read",
            Answer::Shape => "n or L is out of range",
            Answer::List => "the list's length does not fit",
            Answer::Room => "a lent buffer is too short",
            Answer::Stray { .. } => "a constraint names a symbol that the page does not have",
            Answer::Few { .. } => "too few different rows yet",
            Answer::Tie { .. } => "the rows balance",
            Answer::Singular { .. } => "the rows with most uses do not settle the page",
        };
        write!(f, "answer {}: {meaning}", self.number())
    }
}

/// Reads a list of rows, each of 12+L bytes: a seed, a constraint and a payload.
///
/// A row that is equal to an earlier one in all three is a repeat, as a frame that is held on the
/// screen gives. It adds to no uses and no agreement.
///
/// Lent for m rows: `page` of at least nL bytes, `uses` of at least 2m, `roles` of at least m,
/// `scratch` of at least [`SCRATCH_BYTES`](crate::SCRATCH_BYTES). Each use is two bytes,
/// big-endian; [`uses`](crate::uses) and [`marks`](crate::marks) turn them into numbers. Bytes
/// beyond those asked for stay as they are.
///
/// ```
/// use mekorvat::{read_list, uses, Answer, SCRATCH_BYTES};
///
/// // Three rows on the one symbol there is; the first was misread.
/// let mut list = [
///     0, 0, 0, 0, 0, 0, 0, 0, 0, 0, 0, 1, 7, //
///     0, 0, 0, 1, 0, 0, 0, 0, 0, 0, 0, 1, 9, //
///     0, 0, 0, 2, 0, 0, 0, 0, 0, 0, 0, 1, 9,
/// ];
/// let (mut page, mut pairs, mut roles) = ([0; 1], [0; 6], [0; 3]);
/// let mut scratch = vec![0; SCRATCH_BYTES];
/// let answer = read_list(1, 1, &list, &mut page, &mut pairs, &mut roles, &mut scratch);
///
/// assert_eq!(answer, Answer::Page { rank: 2, agreement: 2 });
/// assert_eq!(page, [9]);
/// assert!(uses(&pairs).eq([0, 1, 65_535]));
/// assert_eq!(roles, [1, 2, 0]);
/// assert!(answer.confirmed(&pairs, &roles));
///
/// // The first row by itself gives a page as well, which nothing confirms.
/// let answer = read_list(1, 1, &list[..13], &mut page, &mut pairs, &mut roles, &mut scratch);
/// assert_eq!((answer, page), (Answer::Page { rank: 1, agreement: 1 }, [7]));
/// assert!(!answer.confirmed(&pairs, &roles));
///
/// // Were the third row the second one again, it would be one against one.
/// list[26 + 3] = 1;
/// let answer = read_list(1, 1, &list, &mut page, &mut pairs, &mut roles, &mut scratch);
/// assert_eq!(answer, Answer::Tie { rank: 2 });
/// assert!(uses(&pairs).eq([0, 0, 65_535]));
/// ```
pub fn read_list(
    n: u8,
    l: u8,
    list: &[u8],
    page: &mut [u8],
    uses: &mut [u8],
    roles: &mut [u8],
    scratch: &mut [u8],
) -> Answer {
    let (mut rank, mut place, mut agreement) = (0, 0, 0);
    let number = boundary::read_list(
        n,
        l,
        list,
        page,
        uses,
        roles,
        scratch,
        &mut rank,
        &mut place,
        &mut agreement,
    );
    Answer::of(number, rank, place, agreement)
}
