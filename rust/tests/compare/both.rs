//! Holds the comparison of both readings of a list, with every lent buffer compared whole.

use std::fmt;

use plain::both::{read_both, Both, Second};
use plain::list::row_length;
use plain::number::*;
use plain::rng::Rng;

use crate::buffer::Buffer;
use crate::case::{agree, same, Case, Words};
use crate::lists::{told_by_plain, told_by_types, Lent, ListCase, Told};
use crate::random_lists::random_case;
use crate::rounds::{assert_frequent, rounds};

const ROUNDS: usize = 60_000;

/// All that a reading of both is given.
pub struct BothCase {
    first: ListCase,
    /// How many bytes are lent for the second list, page, uses and roles.
    lengths: [usize; 4],
}

#[derive(Clone)]
struct LentBoth {
    first: Lent,
    second: [Buffer; 4],
}

/// Number, rank, place and agreement of both, and the rows of the second list.
type Numbers = [usize; 9];

fn numbers(both: Both) -> Numbers {
    let [(number, rank, place, agreement), (number2, rank2, place2, agreement2)] =
        [both.first, both.second].map(|answer| {
            let number = usize::from(answer.number);
            (number, answer.rank, answer.place, answer.agreement)
        });
    let rows = both.rows;
    [
        number, rank, place, agreement, number2, rank2, place2, agreement2, rows,
    ]
}

impl LentBoth {
    fn of(case: &BothCase) -> Self {
        let mut rng = Rng(!case.first.noise);
        LentBoth {
            first: Lent::of(&case.first),
            second: case
                .lengths
                .map(|length| Buffer::of_noise(&mut rng, length)),
        }
    }

    /// The independent decoder has 16-bit uses, so the pairs are taken apart and put back.
    fn read_by_plain(&mut self, case: &ListCase) -> (Numbers, [Told; 2]) {
        let [list2, page2, pairs2, roles2] = self.second.each_mut().map(Buffer::lent);
        let pairs = self.first.uses.lent();
        let mut uses: Vec<u16> = mekorvat::uses(pairs).collect();
        let mut uses2: Vec<u16> = mekorvat::uses(pairs2).collect();
        let second = Second {
            list: &mut *list2,
            page: &mut *page2,
            uses: &mut uses2,
            roles: &mut *roles2,
        };
        let both = read_both(
            case.n,
            case.l,
            &case.list,
            self.first.page.lent(),
            &mut uses,
            self.first.roles.lent(),
            second,
            self.first.scratch.lent(),
        );
        let (shape, end2) = ((case.n, case.l), both.rows * row_length(case.l));
        let (page, roles) = (self.first.page.lent(), self.first.roles.lent());
        let (number, number2) = (both.first.number, both.second.number);
        let told = [
            told_by_plain(number, shape, &case.list, page, &uses, roles),
            told_by_plain(number2, shape, &list2[..end2], page2, &uses2, roles2),
        ];
        for (pairs, uses) in [(pairs, uses), (pairs2, uses2)] {
            for (pair, uses) in pairs.chunks_exact_mut(2).zip(uses) {
                pair.copy_from_slice(&uses.to_be_bytes());
            }
        }
        (numbers(both), told)
    }

    fn read_by_boundary(&mut self, case: &ListCase) -> Numbers {
        let [list2, page2, uses2, roles2] = self.second.each_mut().map(Buffer::lent);
        // No answer has this number, so one that is not set shows.
        let mut rest = [u64::MAX; 8];
        let number = mekorvat::boundary::read_both(
            case.n,
            case.l,
            &case.list,
            self.first.page.lent(),
            self.first.uses.lent(),
            self.first.roles.lent(),
            list2,
            page2,
            uses2,
            roles2,
            self.first.scratch.lent(),
            &mut rest,
        );
        let mut all = [usize::from(number); 9];
        all[1..].copy_from_slice(&rest.map(|number| number as usize));
        all
    }

    fn read_by_types(&mut self, case: &ListCase) -> (Numbers, [Told; 2]) {
        let [list, page, uses, roles] = self.second.each_mut().map(Buffer::lent);
        let both = mekorvat::read_both(
            case.n,
            case.l,
            &case.list,
            self.first.page.lent(),
            self.first.uses.lent(),
            self.first.roles.lent(),
            mekorvat::Second {
                list: &mut *list,
                page,
                uses: &mut *uses,
                roles: &mut *roles,
            },
            self.first.scratch.lent(),
        );
        let of = |answer: mekorvat::Answer| plain::list::Answer {
            number: answer.number(),
            rank: answer.rank(),
            place: answer.place(),
            agreement: answer.agreement(),
        };
        let (uses1, roles1) = (self.first.uses.lent(), self.first.roles.lent());
        let end2 = both.rows * row_length(case.l);
        let told = [
            told_by_types(both.first, case.l, &case.list, uses1, roles1),
            told_by_types(both.second, case.l, &list[..end2], uses, roles),
        ];
        let numbers = numbers(Both {
            first: of(both.first),
            second: of(both.second),
            rows: both.rows,
        });
        (numbers, told)
    }

    fn same_as(&self, expected: &LentBoth) -> Result<(), String> {
        self.first.same_as(&expected.first)?;
        let names = ["second list", "second page", "second uses", "second roles"];
        for ((name, found), expected) in names.iter().zip(&self.second).zip(&expected.second) {
            found.same_as(name, expected)?;
        }
        Ok(())
    }
}

impl Case for BothCase {
    type Answered = u8;

    fn compare(&self) -> Result<u8, String> {
        let mut by_plain = LentBoth::of(self);
        let mut by_boundary = by_plain.clone();
        let mut by_types = by_plain.clone();
        let (expected, told) = by_plain.read_by_plain(&self.first);

        let found = by_boundary.read_by_boundary(&self.first);
        same("the numbers of both", found, expected)?;
        by_boundary.same_as(&by_plain)?;

        let found = by_types.read_by_types(&self.first);
        let what = "both answers in types, whether confirmed, and how many rows disagree";
        same(what, found, (expected, told))?;
        by_types.same_as(&by_plain)?;
        Ok(expected[if expected[0] == 0 { 4 } else { 0 }] as u8)
    }

    fn of_words(words: &mut Words) -> Self {
        BothCase {
            lengths: [(); 4].map(|()| words.length()),
            first: ListCase::of_words(words),
        }
    }
}

impl fmt::Display for BothCase {
    fn fmt(&self, f: &mut fmt::Formatter) -> fmt::Result {
        let [list, page, uses, roles] = self.lengths;
        let first = self.first.to_string();
        let words = first.trim_start_matches("list ");
        write!(f, "both {list:x} {page:x} {uses:x} {roles:x} {words}")
    }
}

#[test]
fn random_pairs() {
    let seen = rounds("pairs", ROUNDS, |round, rng| {
        let first = random_case(round, rng);
        let rows = first.list.len() / row_length(first.l);
        let page = usize::from(first.n) * usize::from(first.l);
        let mut lengths = [first.list.len(), page, 2 * rows, rows];
        for length in &mut lengths {
            *length += rng.below(4);
        }
        if rng.below(16) == 0 {
            let short = rng.below(4);
            lengths[short] = lengths[short].saturating_sub(1 + rng.below(4));
        }
        agree(&BothCase { first, lengths })
    });
    assert_frequent(&seen, &[DONE, SHAPE, LIST, ROOM, STRAY, FEW, TIE, SINGULAR]);
}
