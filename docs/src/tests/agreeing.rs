//! Holds the comparison of both list readers on random lists of every kind and shape.

use super::*;
use crate::frame::make;

/// How the rows of a random list come about.
#[derive(Clone, Copy, Debug)]
enum Kind {
    Good,
    OneInTenWrong,
    TwoVersions,
    /// Rows of one symbol each, so that uses are often equal.
    Ties,
    /// Constraints that never name the last symbol, with wrong payloads to fill the rank.
    Singular,
    Stray,
    Few,
    /// The same few frames again and again, some of them wrong.
    Held,
    /// No page at all behind the rows.
    Noise,
}

use Kind::*;

const KINDS: [Kind; 9] = [
    Good,
    OneInTenWrong,
    TwoVersions,
    Ties,
    Singular,
    Stray,
    Few,
    Held,
    Noise,
];

fn random_list(rng: &mut Rng, kind: Kind, n: u8, l: u8, m: usize) -> Vec<u8> {
    let symbols = usize::from(n);
    let length = symbols * usize::from(l);
    let versions = [rng.bytes(length), rng.bytes(length)];
    let mask = u64::MAX >> (64 - n);
    let row_bytes = row_length(l);
    let mut list: Vec<u8> = Vec::new();
    for arrival in 0..m {
        if matches!(kind, Held) && arrival > symbols {
            let start = row_bytes * rng.below(arrival);
            list.extend_from_within(start..start + row_bytes);
            continue;
        }
        let mut constraint = rng.draw() & mask;
        let mut version = 0;
        match kind {
            TwoVersions => version = rng.below(2),
            Ties => constraint = 1 << rng.below(symbols),
            Singular => constraint &= mask >> 1,
            _ => (),
        }
        // Of few seeds, some rows have the same and differ in the rest.
        let seed = match kind {
            Ties => rng.below(3) as u32,
            _ => rng.draw() as u32,
        };
        let mut row = vec![0; row_bytes];
        let made = make(n, l, seed, constraint, &versions[version], &mut row);
        assert_eq!(made, (DONE, 0));
        let wrong = match kind {
            OneInTenWrong | Held => rng.below(10) == 0,
            Ties => rng.below(4) == 0,
            Singular | Noise => true,
            _ => false,
        };
        if wrong {
            row[12..].copy_from_slice(&rng.bytes(usize::from(l)));
        }
        list.extend(row);
    }
    if matches!(kind, Stray) && n < 64 && m > 0 {
        let constraint = rng.below(m) * row_bytes + 4;
        list[constraint..constraint + 8].copy_from_slice(&(mask + 1).to_be_bytes());
    }
    list
}

#[test]
fn random_lists() {
    let mut rng = Rng(6);
    let mut seen = [0; 8];
    for round in 0..3_000 {
        let kind = KINDS[round % KINDS.len()];
        let small = round % 3 != 0;
        let n = 1 + rng.below(if small { 8 } else { 64 }) as u8;
        let l = 1 + rng.below(if small { 3 } else { 32 }) as u8;
        let most = match kind {
            Few => usize::from(n),
            _ if small => 40,
            _ => 200,
        };
        let m = rng.below(most);
        let list = random_list(&mut rng, kind, n, l, m);

        let before = Lent::noise(&mut rng, n, l, m);
        let mut lent = before.clone();
        let answer = lent.read(n, l, &list);
        let page_length = usize::from(n) * usize::from(l);
        lent.assert_rest_stayed(&before, answer.number, page_length, m);
        seen[usize::from(answer.number)] += 1;
    }
    for number in [DONE, STRAY, FEW, TIE, SINGULAR] {
        assert!(seen[usize::from(number)] > 50, "{seen:?}");
    }
}

#[test]
fn largest_lists() {
    let mut rng = Rng(7);
    for kind in KINDS {
        let list = random_list(&mut rng, kind, 64, 32, 512);
        let before = Lent::noise(&mut rng, 64, 32, 512);
        let mut lent = before.clone();
        let answer = lent.read(64, 32, &list);
        lent.assert_rest_stayed(&before, answer.number, 2_048, 512);
        match kind {
            Good => assert_eq!((answer.rank, answer.agreement), (64, 512)),
            OneInTenWrong => assert_eq!(answer.number, DONE),
            Noise => assert_eq!(answer.rank, 320),
            _ => (),
        }
    }
}
