//! Holds one list reading by both programs, with the lent buffers compared whole afterwards.

use std::fmt;

use mekorvat::Answer;
use plain::list::row_length;
use plain::number::DONE;
use plain::page;
use plain::reading::disagreeing;
use plain::rng::Rng;

use crate::buffer::{Buffer, MARGIN};
use crate::case::{same, same_bytes, word, Case, Words};
use crate::confirmed::confirmed;

/// All that a list reading is given.
pub struct ListCase {
    pub n: u8,
    pub l: u8,
    pub list: Vec<u8>,
    pub lengths: Lengths,
    /// The seed of the noise that the lent buffers are filled with.
    pub noise: u64,
}

/// How many bytes of each buffer are lent.
#[derive(Clone, Copy)]
pub struct Lengths {
    pub page: usize,
    pub uses: usize,
    pub roles: usize,
    pub scratch: usize,
}

impl Lengths {
    /// What a reading of m rows asks for, and not a byte more.
    pub fn exact(n: u8, l: u8, m: usize) -> Self {
        Lengths {
            page: page::length(n, l),
            uses: 2 * m,
            roles: m,
            scratch: 32_768,
        }
    }

    pub fn of_words(words: &mut Words) -> Self {
        Lengths {
            page: words.length(),
            uses: words.length(),
            roles: words.length(),
            scratch: words.length(),
        }
    }

    pub fn each_mut(&mut self) -> [&mut usize; 4] {
        let Lengths {
            page,
            uses,
            roles,
            scratch,
        } = self;
        [page, uses, roles, scratch]
    }
}

impl fmt::Display for Lengths {
    fn fmt(&self, f: &mut fmt::Formatter) -> fmt::Result {
        let Lengths {
            page,
            uses,
            roles,
            scratch,
        } = self;
        write!(f, "{page:x} {uses:x} {roles:x} {scratch:x}")
    }
}

/// Number, rank, place and agreement.
type Numbers = (u8, usize, usize, usize);

/// Of a page: whether it is confirmed, and how many rows count and do not agree with it.
pub type Told = Option<(bool, usize)>;

/// By the plain program, of its answer's number and of what it left.
pub fn told_by_plain(
    number: u8,
    (n, l): (u8, u8),
    list: &[u8],
    page: &[u8],
    uses: &[u16],
    roles: &[u8],
) -> Told {
    if number != DONE {
        return None;
    }
    let rows = list.len() / row_length(l);
    let page = &page[..page::length(n, l)];
    Some((
        confirmed(number, rows, uses, roles),
        disagreeing(l, list, page),
    ))
}

/// By the crate, of the marks and of the rows that it counts itself.
pub fn told_by_types(answer: Answer, l: u8, list: &[u8], uses: &[u8], roles: &[u8]) -> Told {
    let confirmed = answer.confirmed(uses, roles);
    let Answer::Page { agreement, .. } = answer else {
        assert!(!confirmed, "there is no page");
        return None;
    };
    Some((confirmed, mekorvat::counted(l, list) - agreement))
}

#[derive(Clone)]
pub struct Lent {
    pub page: Buffer,
    pub uses: Buffer,
    pub roles: Buffer,
    pub scratch: Buffer,
}

impl Lent {
    pub fn of(case: &ListCase) -> Self {
        Lent::within(MARGIN, case.lengths, case.noise)
    }

    /// Each buffer with a margin of so many bytes, and noise of this seed in it.
    pub fn within(margin: usize, mut lengths: Lengths, noise: u64) -> Self {
        let mut rng = Rng(noise);
        let mut buffer = |length: &mut usize| Buffer::within(&mut rng, margin, *length);
        let [page, uses, roles, scratch] = lengths.each_mut().map(&mut buffer);
        Lent {
            page,
            uses,
            roles,
            scratch,
        }
    }

    /// The independent decoder has 16-bit uses, so the pairs are taken apart and put back.
    /// Gives also what is told of a page, by the plain program's marks and rows.
    fn read_by_plain(&mut self, case: &ListCase) -> (Numbers, Told) {
        let pairs = self.uses.lent();
        let mut uses: Vec<u16> = mekorvat::uses(pairs).collect();
        let answer = plain::reading::read_list(
            case.n,
            case.l,
            &case.list,
            self.page.lent(),
            &mut uses,
            self.roles.lent(),
            self.scratch.lent(),
        );
        for (pair, uses) in pairs.chunks_exact_mut(2).zip(&uses) {
            pair.copy_from_slice(&uses.to_be_bytes());
        }
        let told = told_by_plain(
            answer.number,
            (case.n, case.l),
            &case.list,
            self.page.lent(),
            &uses,
            self.roles.lent(),
        );
        let (rank, place, agreement) = (answer.rank, answer.place, answer.agreement);
        ((answer.number, rank, place, agreement), told)
    }

    fn read_by_boundary(&mut self, case: &ListCase) -> Numbers {
        // No answer has these numbers, so one that is not set shows.
        let (mut rank, mut place, mut agreement) = (usize::MAX, usize::MAX, usize::MAX);
        let number = mekorvat::boundary::read_list(
            case.n,
            case.l,
            &case.list,
            self.page.lent(),
            self.uses.lent(),
            self.roles.lent(),
            self.scratch.lent(),
            &mut rank,
            &mut place,
            &mut agreement,
        );
        (number, rank, place, agreement)
    }

    fn read_by_types(&mut self, case: &ListCase) -> (Numbers, Told) {
        let answer = mekorvat::read_list(
            case.n,
            case.l,
            &case.list,
            self.page.lent(),
            self.uses.lent(),
            self.roles.lent(),
            self.scratch.lent(),
        );
        let (rank, place, agreement) = (answer.rank(), answer.place(), answer.agreement());
        let (uses, roles) = (self.uses.lent(), self.roles.lent());
        let told = told_by_types(answer, case.l, &case.list, uses, roles);
        ((answer.number(), rank, place, agreement), told)
    }

    pub fn same_as(&self, expected: &Lent) -> Result<(), String> {
        self.page.same_as("page", &expected.page)?;
        self.uses.same_as("uses", &expected.uses)?;
        self.roles.same_as("roles", &expected.roles)?;
        self.scratch.same_as("scratch", &expected.scratch)
    }
}

impl Case for ListCase {
    type Answered = u8;

    fn compare(&self) -> Result<u8, String> {
        let mut by_plain = Lent::of(self);
        let mut by_boundary = by_plain.clone();
        let mut by_types = by_plain.clone();
        let list = self.list.clone();

        let (expected, told) = by_plain.read_by_plain(self);
        let numbers = by_boundary.read_by_boundary(self);
        same("number, rank, place, agreement", numbers, expected)?;
        by_boundary.same_as(&by_plain)?;

        let found = by_types.read_by_types(self);
        let what = "the answer in types, whether confirmed, and how many rows disagree";
        same(what, found, (expected, told))?;
        by_types.same_as(&by_plain)?;
        same_bytes("list", &self.list, &list)?;
        Ok(expected.0)
    }

    fn of_words(words: &mut Words) -> Self {
        ListCase {
            n: words.byte(),
            l: words.byte(),
            list: words.bytes(),
            lengths: Lengths::of_words(words),
            noise: words.number(),
        }
    }
}

impl fmt::Display for ListCase {
    fn fmt(&self, f: &mut fmt::Formatter) -> fmt::Result {
        let (n, l, list) = (self.n, self.l, word(&self.list));
        let (lengths, noise) = (self.lengths, self.noise);
        write!(f, "list {n:x} {l:x} {list} {lengths} {noise:x}")
    }
}
