//! Holds what wish 3 is for: a frame held on the screen is one frame.

use super::*;
use crate::both::{read_both, Second};

/// What a list of rows on one symbol gives: answer, page byte and the uses of all rows.
fn read_one_symbol(rows: &[Row]) -> (Answer, u8, Vec<u16>) {
    let mut lent = Lent::noise(&mut Rng(10), 1, 1, rows.len());
    let answer = lent.read(1, 1, &list_of(rows));
    (answer, lent.page[0], lent.uses[..rows.len()].to_vec())
}

const MISREAD: Row = (0, 1, 7);
const GOOD: [Row; 2] = [(1, 1, 9), (2, 1, 9)];

#[test]
fn a_misread_frame_held_thirty_times() {
    let rows = [&[MISREAD; 30][..], &GOOD].concat();
    let (answer, page, uses) = read_one_symbol(&rows);
    assert_eq!((answer.number, page, answer.agreement), (DONE, 9, 2));
    assert_eq!((uses[0], uses[30]), (0, 1));
}

#[test]
fn thirty_rows_equal_but_for_their_seeds() {
    let thirty = (100..130).map(|seed| (seed, 1, 7));
    let rows: Vec<Row> = thirty.chain(GOOD).collect();
    let (answer, page, uses) = read_one_symbol(&rows);
    assert_eq!((answer.number, page, answer.agreement), (DONE, 7, 30));
    assert_eq!((uses[0], uses[30]), (29, 1));
}

/// A repeat is a repeat of any earlier row, also of one that is not kept.
#[test]
fn repeats_apart_from_their_rows() {
    let rows = [GOOD[0], GOOD[1], MISREAD, GOOD[0], GOOD[1], MISREAD];
    let (answer, page, uses) = read_one_symbol(&rows);
    assert_eq!((answer.number, page, answer.agreement), (DONE, 9, 2));
    assert_eq!(uses, [1, 65_535, 0, 65_535, 65_535, 65_535]);
}

/// Repeats of rows of a list, put in anywhere behind them, change nothing but the places of marks.
#[test]
fn repeats_put_in() {
    let mut rng = Rng(11);
    for _ in 0..2_000 {
        let (n, l) = (1 + rng.below(5) as u8, 1 + rng.below(3) as u8);
        let m = rng.below(15);
        let mut rows: Vec<Vec<u8>> = Vec::new();
        while rows.len() < m {
            let mut row = rng.bytes(row_length(l));
            row[..3].fill(0);
            row[4..12].copy_from_slice(&(rng.below(1 << n) as u64).to_be_bytes());
            row[12] &= 1;
            if !rows.contains(&row) {
                rows.push(row);
            }
        }
        let mut held = rows.clone();
        // For each row of the longer list, whether it is one of the shorter.
        let mut counts = vec![true; m];
        for _ in 0..if m == 0 { 0 } else { rng.below(40) } {
            let row = rng.below(held.len());
            let place = row + 1 + rng.below(held.len() - row);
            held.insert(place, held[row].clone());
            counts.insert(place, false);
        }

        let mut short = Lent::noise(&mut rng, n, l, m);
        let mut long = Lent::noise(&mut rng, n, l, held.len());
        let answer = short.read(n, l, &rows.concat());
        assert_eq!(long.read(n, l, &held.concat()), answer);
        if answer.number == DONE {
            let length = usize::from(n) * usize::from(l);
            assert_eq!(long.page[..length], short.page[..length]);
        }
        let mut arrivals = 0..m;
        for (place, counts) in counts.into_iter().enumerate() {
            let expected = match counts {
                true => arrivals.next().map(|i| (short.uses[i], short.roles[i])),
                false => Some((65_535, 0)),
            };
            assert_eq!(Some((long.uses[place], long.roles[place])), expected);
        }
    }
}

/// The second list has every row that does not agree, held ones too, each with its seed.
#[test]
fn held_rows_of_a_second_version() {
    let rows = [
        (0, 1, 7),
        (0, 1, 7),
        (3, 1, 7),
        (0, 1, 7),
        (1, 1, 9),
        (2, 1, 9),
        (2, 1, 9),
        (4, 1, 9),
    ];
    let list = list_of(&rows);
    let mut list2 = vec![0; list.len()];
    let (mut page2, mut uses2, mut roles2) = ([0], [0; 8], [0; 8]);
    let mut lent = Lent::noise(&mut Rng(12), 1, 1, 8);
    let both = read_both(
        1,
        1,
        &list,
        &mut lent.page,
        &mut lent.uses,
        &mut lent.roles,
        Second {
            list: &mut list2,
            page: &mut page2,
            uses: &mut uses2,
            roles: &mut roles2,
        },
        &mut lent.scratch,
    );
    assert_eq!((both.first.number, both.first.agreement), (DONE, 3));
    assert_eq!((both.second.number, both.second.agreement), (DONE, 2));
    assert_eq!((lent.page[0], page2[0], both.rows), (9, 7, 4));
    assert_eq!(list2[..52], list_of(&rows[..4]));
    assert_eq!(uses2[..4], [1, 65_535, 65_535, 65_535]);
}
