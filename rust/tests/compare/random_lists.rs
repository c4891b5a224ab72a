//! Holds the comparison of list readings on random lists of every kind, size and fault.

use plain::frame::make;
use plain::list::row_length;
use plain::number::*;
use plain::page;
use plain::rng::Rng;

use crate::buffer::{noise, some_noise};
use crate::case::agree;
use crate::lists::{Lengths, ListCase};
use crate::rounds::{assert_frequent, rounds};

const ROUNDS: usize = 220_000;

/// How the rows of a list come about.
#[derive(Clone, Copy, PartialEq)]
enum Kind {
    Good,
    OneInTenWrong,
    TwoVersions,
    /// Rows of one symbol each, so that uses are often equal.
    Ties,
    /// Constraints that never name the last symbol, with wrong payloads to fill the rank.
    Singular,
    Stray,
    /// Fewer rows than symbols.
    Few,
    /// The same few frames again and again, some of them wrong.
    Held,
    /// The same, but some copies differ from their row in the seed, the constraint or the payload.
    AlmostHeld,
    /// No page at all behind the rows.
    Noise,
}

use Kind::*;

const KINDS: [Kind; 10] = [
    Good,
    OneInTenWrong,
    TwoVersions,
    Ties,
    Singular,
    Stray,
    Few,
    Held,
    AlmostHeld,
    Noise,
];

#[test]
fn random_lists() {
    let seen = rounds("lists", ROUNDS, |round, rng| {
        agree(&random_case(round, rng))
    });
    let all = [DONE, SHAPE, LIST, ROOM, STRAY, FEW, TIE, SINGULAR];
    assert_frequent(&seen, &all);
}

pub fn random_case(round: usize, rng: &mut Rng) -> ListCase {
    let kind = KINDS[round % KINDS.len()];
    let (n, l, most) = random_size(rng);
    let m = match kind {
        Few => rng.below(usize::from(n)),
        // The largest lists are full ones.
        _ if most == 512 => most,
        _ => rng.below(most),
    };
    let mut lengths = Lengths::exact(n, l, m);
    let surplus = if rng.below(8) == 0 { 1_000 } else { 4 };
    for length in lengths.each_mut() {
        *length += rng.below(surplus);
    }
    let mut case = ListCase {
        n,
        l,
        list: random_list(rng, kind, n, l, m),
        lengths,
        noise: rng.draw(),
    };
    if rng.below(8) == 0 {
        // Two at once show which of them is answered.
        for _ in 0..1 + rng.below(2) {
            break_case(rng, &mut case, Lengths::exact(n, l, m));
        }
    }
    case
}

/// n, L and a bound for m: mostly small, as then every answer is frequent and a round is short.
fn random_size(rng: &mut Rng) -> (u8, u8, usize) {
    let mut from_1_to = |most| 1 + rng.below(most) as u8;
    match from_1_to(200) {
        1 => (64, 32, 512),
        2..=12 => (from_1_to(64), from_1_to(32), 200),
        _ => (from_1_to(8), from_1_to(3), 40),
    }
}

fn random_list(rng: &mut Rng, kind: Kind, n: u8, l: u8, m: usize) -> Vec<u8> {
    let symbols = usize::from(n);
    let row_bytes = row_length(l);
    let versions = [(); 2].map(|()| noise(rng, page::length(n, l)));
    let mut list: Vec<u8> = Vec::with_capacity(row_bytes * m);
    for arrival in 0..m {
        if matches!(kind, Held | AlmostHeld) && arrival > symbols {
            let start = row_bytes * rng.below(arrival);
            list.extend_from_within(start..start + row_bytes);
            if kind == AlmostHeld {
                alter(rng, n, &mut list[row_bytes * arrival..]);
            }
        } else {
            list.extend(random_row(rng, kind, n, l, &versions));
        }
    }
    if kind == Stray && n < 64 && m > 0 {
        for _ in 0..1 + rng.below(3) {
            let start = row_bytes * rng.below(m) + 4;
            let stray = 1u64 << (symbols + rng.below(64 - symbols)) | 1;
            list[start..start + 8].copy_from_slice(&stray.to_be_bytes());
        }
    }
    list
}

/// Another seed, another constraint, another payload, or the same row.
fn alter(rng: &mut Rng, n: u8, row: &mut [u8]) {
    match rng.below(8) {
        0 | 1 => row[rng.below(4)] ^= 1 << rng.below(8),
        2 => {
            let symbol = rng.below(usize::from(n));
            row[11 - symbol / 8] ^= 1 << (symbol % 8);
        }
        3 => row[12 + rng.below(row.len() - 12)] ^= 1 << rng.below(8),
        _ => (),
    }
}

fn random_row(rng: &mut Rng, kind: Kind, n: u8, l: u8, versions: &[Vec<u8>; 2]) -> Vec<u8> {
    let mask = u64::MAX >> (64 - n);
    let constraint = match kind {
        Ties => 1 << rng.below(usize::from(n)),
        Singular => rng.draw() & mask >> 1,
        _ => rng.draw() & mask,
    };
    let version = match kind {
        TwoVersions => rng.below(2),
        _ => 0,
    };
    let wrong = match kind {
        OneInTenWrong | Held | AlmostHeld => rng.below(10) == 0,
        Ties => rng.below(4) == 0,
        Singular | Noise => true,
        _ => false,
    };
    let seed = match kind {
        // So few that rows often have the same, and differ in the rest or not.
        Ties | Singular => rng.below(3) as u32,
        _ => rng.draw() as u32,
    };
    let mut row = vec![0; row_length(l)];
    let made = make(n, l, seed, constraint, &versions[version], &mut row);
    assert_eq!(made, (DONE, 0));
    if wrong {
        row[12..].copy_from_slice(&noise(rng, usize::from(l)));
    }
    row
}

/// Makes one of the refusals 1 to 3 apply, mostly just so.
fn break_case(rng: &mut Rng, case: &mut ListCase, mut needed: Lengths) {
    let row_bytes = row_length(case.l);
    match rng.below(8) {
        0 => case.n = [0, 65, 128, 255][rng.below(4)],
        1 => case.l = [0, 33, 64, 255][rng.below(4)],
        2 => case.list.extend(some_noise(rng, row_bytes)),
        3 => case.list.resize(row_bytes * (513 + rng.below(2)), 0),
        buffer => {
            let needed = *needed.each_mut()[buffer - 4];
            *case.lengths.each_mut()[buffer - 4] = needed.saturating_sub(1 + rng.below(2));
        }
    }
}
