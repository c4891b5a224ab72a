//! Holds what "confirmed" means, three times over: by the plain program's marks, by ranks alone, and
//! by trying every page, and every other payload of a row that nothing checks. In all of it a row
//! that repeats an earlier one does not count.

use std::collections::HashSet;

use mekorvat::{counted, marks, read_list, Answer, Mark, SCRATCH_BYTES};
use plain::frame::make;
use plain::list::row_length;
use plain::number::*;
use plain::rng::Rng;

use crate::buffer::noise;
use crate::lists::ListCase;
use crate::random_lists::random_case;
use crate::rounds::{assert_frequent, rounds};

/// By the plain program's marks on the rows of a list: there is a page, and no row is picked with
/// no use.
pub fn confirmed(number: u8, rows: usize, uses: &[u16], roles: &[u8]) -> bool {
    number == DONE && (0..rows).all(|arrival| roles[arrival] != 2 || uses[arrival] > 0)
}

/// What the proved reader makes of a list.
#[derive(Clone, PartialEq, Eq)]
struct Read {
    answer: Answer,
    page: Vec<u8>,
    marks: Vec<Mark>,
    confirmed: bool,
}

fn read(n: u8, l: u8, list: &[u8]) -> Read {
    let m = list.len() / row_length(l);
    let mut page = vec![0; plain::page::length(n, l)];
    let (mut uses, mut roles) = (vec![0; 2 * m], vec![0; m]);
    let mut scratch = [0; SCRATCH_BYTES];
    let answer = read_list(n, l, list, &mut page, &mut uses, &mut roles, &mut scratch);
    Read {
        answer,
        page,
        marks: marks(&uses, &roles).collect(),
        confirmed: answer.confirmed(&uses, &roles),
    }
}

/// What a round found, where the list gave a page.
#[derive(Clone, Copy)]
enum Found {
    NoPage,
    Confirmed,
    Unconfirmed,
    UnconfirmedAndWrong,
}

use Found::*;

/// By the plain program's ranks and roles alone: a row has no use exactly when the rank falls
/// without it and its repeats.
fn confirmed_by_ranks(case: &ListCase) -> Option<bool> {
    let row_bytes = row_length(case.l);
    let m = case.list.len() / row_bytes;
    let mut roles = vec![0; m];
    let read = |list: &[u8], roles: &mut [u8]| {
        let mut page = vec![0; plain::page::length(case.n, case.l)];
        let (mut uses, mut scratch) = (vec![0; m], [0; SCRATCH_BYTES]);
        let (n, l) = (case.n, case.l);
        plain::reading::read_list(n, l, list, &mut page, &mut uses, roles, &mut scratch)
    };
    let answer = read(&case.list, &mut roles);
    let rows = || case.list.chunks_exact(row_bytes);
    let stays = |&arrival: &usize| {
        let row = rows().nth(arrival).unwrap();
        let without: Vec<&[u8]> = rows().filter(|other| *other != row).collect();
        read(&without.concat(), &mut vec![0; m]).rank == answer.rank
    };
    let picked: Vec<usize> = (0..m).filter(|&arrival| roles[arrival] == 2).collect();
    (answer.number == DONE).then(|| picked.iter().all(stays))
}

#[test]
fn a_use_is_a_rank_that_stays() {
    let seen = rounds("lists less a row", 20_000, |round, rng| {
        let case = random_case(round, rng);
        let in_shape = (1..=8).contains(&case.n) && (1..=3).contains(&case.l);
        if !in_shape || case.list.len() % row_length(case.l) != 0 {
            return NoPage as u8;
        }
        let Some(expected) = confirmed_by_ranks(&case) else {
            return NoPage as u8;
        };
        let read = read(case.n, case.l, &case.list);
        assert_eq!(read.confirmed, expected, "{case}");
        if expected {
            Confirmed as u8
        } else {
            Unconfirmed as u8
        }
    });
    assert_frequent(&seen, &[Confirmed, Unconfirmed].map(|found| found as u8));
}

/// Seed, constraint and payload, the latter of so few bits that all pages can be tried.
type Row = (u32, u64, u8);

/// Whether no other page has all rows that count but at most one agree with it: all pages whose
/// symbols have so many bits are tried. A change of one payload within these bits changes the page
/// within them.
fn is_the_only_page(n: usize, bits: usize, rows: &[Row], given: &[u8]) -> bool {
    let symbol = |page: usize, k: usize| (page >> (bits * k) & ((1 << bits) - 1)) as u8;
    let counting: HashSet<&Row> = rows.iter().collect();
    let misread = |page: usize, &&&(_, constraint, payload): &&&Row| {
        let named = (0..n).filter(|k| constraint >> k & 1 == 1);
        named.fold(payload, |sum, k| sum ^ symbol(page, k)) != 0
    };
    (0..1 << (bits * n))
        .filter(|&page| counting.iter().filter(|row| misread(page, row)).count() <= 1)
        .all(|page| (0..n).all(|k| symbol(page, k) == given[k]))
}

/// Reads the rows, and wants "confirmed" to mean what is proved of it.
fn try_every_page(n: usize, bits: usize, rows: &[Row]) -> Found {
    let list: Vec<u8> = rows
        .iter()
        .flat_map(|(seed, constraint, payload)| {
            let (seed, constraint) = (seed.to_be_bytes(), constraint.to_be_bytes());
            [&seed[..], &constraint, &[*payload]].concat()
        })
        .collect();
    let read = read(n as u8, 1, &list);
    let Answer::Page { .. } = read.answer else {
        assert!(!read.confirmed);
        return NoPage;
    };
    let expected = is_the_only_page(n, bits, rows, &read.page);
    assert_eq!(read.confirmed, expected, "{n} {rows:?}");
    if expected {
        Confirmed
    } else {
        Unconfirmed
    }
}

/// Which seeds rows have.
#[derive(Clone, Copy)]
enum Seeds {
    /// Each its own.
    Apart,
    /// One of two.
    OfTwo,
}

/// Every list of at most so many rows whose payloads have so many bits.
fn try_every_list(seeds: Seeds, n: usize, bits: usize, most: u32) -> [usize; 4] {
    let sums = 1usize << (n + bits);
    let kinds = match seeds {
        Seeds::Apart => sums,
        Seeds::OfTwo => 2 * sums,
    };
    let row = |place: u32, kind: usize| {
        let seed = match seeds {
            Seeds::Apart => place,
            Seeds::OfTwo => (kind / sums) as u32,
        };
        let (constraint, payload) = ((kind % sums) >> bits, kind % (1 << bits));
        (seed, constraint as u64, payload as u8)
    };
    let mut seen = [0; 4];
    for m in 0..=most {
        for number in 0..kinds.pow(m) {
            let kind = |place| number / kinds.pow(place) % kinds;
            let rows: Vec<Row> = (0..m).map(|place| row(place, kind(place))).collect();
            seen[try_every_page(n, bits, &rows) as usize] += 1;
        }
    }
    seen
}

#[test]
fn every_page_of_every_small_list() {
    let apart = [(1, 2, 5), (2, 1, 5), (2, 2, 4), (3, 1, 4)].map(|size| (Seeds::Apart, size));
    let of_two = [(1, 2, 4), (2, 1, 4), (2, 2, 3), (3, 1, 4)].map(|size| (Seeds::OfTwo, size));
    for (seeds, (n, bits, most)) in apart.into_iter().chain(of_two) {
        let seen = try_every_list(seeds, n, bits, most);
        assert!(seen[Confirmed as usize] > 50, "{seen:?}");
        assert!(seen[Unconfirmed as usize] > 50, "{seen:?}");
    }
}

#[test]
fn every_page_of_random_lists() {
    let seen = rounds("lists with every page", 20_000, |_, rng| {
        let (n, bits) = (1 + rng.below(4), 1 + rng.below(2));
        let page = rng.bytes(n);
        let mask = (1u8 << bits) - 1;
        let wrong = rng.below(4);
        let seeds = [1, 3, 1_000][rng.below(3)];
        let rows: Vec<Row> = (0..n + rng.below(12))
            .map(|_| {
                let constraint = rng.below(1 << n) as u64;
                let right = plain::page::sum(constraint, 1, &page)[0];
                let noise = rng.draw() as u8;
                let payload = if rng.below(8) < wrong { noise } else { right };
                (rng.below(seeds) as u32, constraint, payload & mask)
            })
            .collect();
        try_every_page(n, bits, &rows) as u8
    });
    let all = [NoPage, Confirmed, Unconfirmed];
    assert_frequent(&seen, &all.map(|found| found as u8));
}

/// A list of rows of a page, some more than it has symbols, some of them held.
struct Good {
    n: u8,
    l: u8,
    page: Vec<u8>,
    list: Vec<u8>,
}

fn good_list(rng: &mut Rng) -> Good {
    let (n, l) = match rng.below(20) {
        0 => (64, 32),
        1 => (1 + rng.below(64) as u8, 1 + rng.below(32) as u8),
        _ => (1 + rng.below(8) as u8, 1 + rng.below(3) as u8),
    };
    let page = noise(rng, plain::page::length(n, l));
    let mut list = Vec::new();
    for _ in 0..usize::from(n) + rng.below(12) {
        let mut row = vec![0; row_length(l)];
        let (seed, constraint) = (rng.draw() as u32, rng.draw() & u64::MAX >> (64 - n));
        assert_eq!(make(n, l, seed, constraint, &page, &mut row), (DONE, 0));
        let times = [1, 1, 1, 1 + rng.below(3)][rng.below(4)];
        list.extend(row.repeat(times));
    }
    Good { n, l, page, list }
}

/// Puts noise into a row: into its seed and its constraint too, or into its payload only.
fn misread(rng: &mut Rng, n: u8, l: u8, row: &mut [u8]) {
    if rng.below(2) == 0 {
        let (seed, constraint) = (rng.draw() as u32, rng.draw() & u64::MAX >> (64 - n));
        row[..4].copy_from_slice(&seed.to_be_bytes());
        row[4..12].copy_from_slice(&constraint.to_be_bytes());
    }
    row[12..].copy_from_slice(&noise(rng, usize::from(l)));
}

/// One misread row at most, wherever it is and however long it is held: a page that is confirmed is
/// the right one.
#[test]
fn one_misread_row() {
    let seen = rounds("lists with a row misread", 40_000, |_, rng| {
        let Good {
            n,
            l,
            page,
            mut list,
        } = good_list(rng);
        let row_bytes = row_length(l);
        if rng.below(4) > 0 {
            let start = row_bytes * rng.below(list.len() / row_bytes);
            misread(rng, n, l, &mut list[start..start + row_bytes]);
            let held = list[start..start + row_bytes].repeat(rng.below(30));
            let end = start + row_bytes;
            list.splice(end..end, held);
        }
        let read = read(n, l, &list);
        let found = match read.answer {
            Answer::Page { .. } if read.confirmed => {
                assert_eq!(read.page, page, "{n} {l} {list:02x?}");
                Confirmed
            }
            Answer::Page { .. } if read.page != page => UnconfirmedAndWrong,
            Answer::Page { .. } => Unconfirmed,
            _ => NoPage,
        };
        found as u8
    });
    let all = [NoPage, Confirmed, Unconfirmed, UnconfirmedAndWrong];
    assert_frequent(&seen, &all.map(|found| found as u8));
}

/// However many rows are misread: a page is unconfirmed only with rank n and all rows agreeing,
/// and any other payload of a picked row with no use, and of its repeats, gives another page with
/// all else the same.
#[test]
fn nothing_tells_of_a_row_alone() {
    let seen = rounds("lists with a row alone", 40_000, |_, rng| {
        let Good { n, l, mut list, .. } = good_list(rng);
        let row_bytes = row_length(l);
        for row in list.chunks_exact_mut(row_bytes) {
            if rng.below(20) == 0 {
                misread(rng, n, l, row);
            }
        }
        let before = read(n, l, &list);
        let Answer::Page { rank, agreement } = before.answer else {
            return NoPage as u8;
        };
        let full = rank == usize::from(n);
        assert_eq!(full, agreement == counted(l, &list));
        if before.confirmed {
            return Confirmed as u8;
        }
        assert!(full, "with a rank over n a page is confirmed");
        let alone = before.marks.iter().enumerate();
        for (arrival, _) in alone.filter(|(_, mark)| mark.alone()) {
            let row = list[row_bytes * arrival..][..row_bytes].to_vec();
            let mut other = list.clone();
            let bit = rng.below(8 * usize::from(l));
            let same = other.chunks_exact_mut(row_bytes).filter(|r| *r == row);
            for repeat in same {
                repeat[12 + bit / 8] ^= 1 << (bit % 8);
            }
            let after = read(n, l, &other);
            assert!(after.page != before.page);
            let page = before.page.clone();
            assert!(Read { page, ..after } == before);
        }
        Unconfirmed as u8
    });
    let all = [NoPage, Confirmed, Unconfirmed];
    assert_frequent(&seen, &all.map(|found| found as u8));
}

/// Of two misread rows nothing is claimed: here each confirms the other, and the page is wrong.
#[test]
fn two_misread_rows_can_confirm_a_page() {
    let written = [9];
    let misread = [0, 0, 0, 4, 0, 0, 0, 0, 0, 0, 0, 1, 7];
    let too = [0, 0, 0, 5, 0, 0, 0, 0, 0, 0, 0, 1, 7];
    let given = read(1, 1, &[misread, too].concat());
    assert!(given.confirmed && given.page != written);

    // One of them does not confirm itself, however long it is held.
    let held = read(1, 1, &misread.repeat(30));
    let one = Answer::Page {
        rank: 1,
        agreement: 1,
    };
    assert_eq!(held.answer, one);
    assert!(!held.confirmed);
}

/// An answer without a page, and marks that are cut short, confirm nothing.
#[test]
fn what_confirms_nothing() {
    let list: Vec<u8> = [(0, 7), (1, 9), (2, 9), (3, 9)]
        .iter()
        .flat_map(|&(seed, payload)| [0, 0, 0, seed, 0, 0, 0, 0, 0, 0, 0, 1, payload])
        .collect();
    let (mut page, mut uses, mut roles) = ([0], [0; 8], [2; 4]);
    let mut scratch = [0; SCRATCH_BYTES];
    let mut read_rows = |m: usize, uses: &mut [u8], roles: &mut [u8]| {
        read_list(1, 1, &list[..13 * m], &mut page, uses, roles, &mut scratch)
    };
    // None, one, and one against one.
    for (m, number) in [(0, FEW), (1, DONE), (2, TIE)] {
        let answer = read_rows(m, &mut uses, &mut roles);
        assert_eq!(answer.number(), number);
        assert!(!answer.confirmed(&uses, &roles));
    }
    // Behind the marks of three rows there still is a role 2 with use 0, of no reading.
    let answer = read_rows(3, &mut uses, &mut roles);
    assert_eq!((roles[3], &uses[6..]), (2, &[0, 0][..]));
    assert!(answer.confirmed(&uses, &roles));
    assert!(answer.confirmed(&uses[..4], &roles[..2]));
    assert!(!answer.confirmed(&uses[..2], &roles));
    assert!(!answer.confirmed(&uses, &roles[..1]));
    assert!(!Answer::Room.confirmed(&uses, &roles));
}
