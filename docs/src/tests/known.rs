//! Holds document 01's readings worked by hand, K1 to K12, and its edges; the rows have wish 3's seeds.

use super::*;

/// A line of the table: n, the list with the seeds 0, 1, 2 and so on, number, rank, page, uses in list order, agreement.
type Known = (
    u8,
    &'static [(u64, u8)],
    u8,
    usize,
    &'static [u8],
    &'static [u16],
    usize,
);

const NO: u16 = 65_535;
const K7: &[(u64, u8)] = &[(3, 1), (1, 3), (3, 2), (2, 1), (1, 0)];
const K8: &[(u64, u8)] = &[(1, 3), (2, 1), (3, 1), (3, 2), (1, 0)];
const K9: &[(u64, u8)] = &[(3, 13), (1, 6), (3, 14), (2, 8), (1, 5)];

const TABLE: [Known; 12] = [
    (1, &[], 5, 0, &[], &[], 0),
    (1, &[(1, 7)], 0, 1, &[7], &[0], 1),
    (1, &[(1, 7), (1, 9)], 6, 2, &[], &[0, 0], 0),
    (1, &[(1, 7), (1, 9), (1, 9)], 0, 2, &[9], &[0, 1, NO], 2),
    (1, &[(0, 7)], 7, 1, &[], &[0], 0),
    (1, &[(1, 7), (0, 0)], 0, 1, &[7], &[0, NO], 2),
    (2, K7, 0, 3, &[3, 1], &[1, 2, 2, NO, NO], 3),
    (2, K8, 6, 3, &[], &[1, 2, 1, NO, NO], 0),
    (2, K9, 0, 3, &[6, 8], &[1, 2, 2, NO, NO], 3),
    (1, &[(2, 7)], 4, 0, &[], &[], 0),
    (2, &[(1, 4), (1, 5)], 7, 2, &[], &[0, 0], 0),
    (2, &[(1, 4)], 5, 1, &[], &[0], 0),
];

#[test]
fn worked_by_hand() {
    let mut rng = Rng(1);
    for (i, (n, rows, number, rank, page, uses, agreement)) in TABLE.into_iter().enumerate() {
        let before = Lent::noise(&mut rng, n, 1, rows.len());
        let mut lent = before.clone();
        let answer = lent.read(n, 1, &list_of(&numbered(rows)));
        let expected = Answer {
            number,
            rank,
            place: 0,
            agreement,
        };
        assert_eq!(answer, expected, "K{}", i + 1);
        assert_eq!(lent.page[..page.len()], *page, "K{}", i + 1);
        assert_eq!(lent.uses[..uses.len()], *uses, "K{}", i + 1);
        lent.assert_rest_stayed(&before, number, page.len(), rows.len());
    }
}

/// K4 with equal seeds on its second and third rows: the one against the other, and the third is no
/// vote.
#[test]
fn k4_with_equal_seeds() {
    let rows = [(0, 1, 7), (1, 1, 9), (1, 1, 9)];
    let before = Lent::noise(&mut Rng(9), 1, 1, 3);
    let mut lent = before.clone();
    let answer = lent.read(1, 1, &list_of(&rows));
    assert_eq!(answer, Answer::without_page(TIE, 2));
    assert_eq!(lent.uses[..3], [0, 0, NO]);
    assert_eq!(lent.roles[..3], [1, 1, 0]);
    lent.assert_rest_stayed(&before, TIE, 1, 3);
}

#[test]
fn roles_of_known_readings() {
    let roles = |number: usize| {
        let (n, rows, ..) = TABLE[number - 1];
        let mut lent = Lent::noise(&mut Rng(2), n, 1, rows.len());
        lent.read(n, 1, &list_of(&numbered(rows)));
        lent.roles[..rows.len()].to_vec()
    };
    assert_eq!(roles(3), [1, 1]);
    assert_eq!(roles(4), [1, 2, 0]);
    assert_eq!(roles(5), [2]);
    assert_eq!(roles(6), [2, 0]);
    assert_eq!(roles(7), [1, 2, 2, 0, 0]);
    assert_eq!(roles(11), [2, 2]);
    assert_eq!(roles(12), [1]);
}

/// The number of a reading of m all-zero rows with no surplus room: 5 if it is not refused.
fn number_of(n: u8, l: u8, m: usize, shorten: impl Fn(&mut Lent)) -> u8 {
    let mut before = Lent::noise(&mut Rng(3), n, l, m);
    before.page.truncate(usize::from(n) * usize::from(l));
    before.uses.truncate(m);
    before.roles.truncate(m);
    before.scratch.truncate(32_768);
    shorten(&mut before);
    let mut lent = before.clone();
    let answer = lent.read(n, l, &vec![0; row_length(l) * m]);
    assert_eq!(answer, Answer::without_page(answer.number, 0));
    lent.assert_rest_stayed(&before, answer.number, 0, m);
    answer.number
}

#[test]
fn edges() {
    let whole = |_: &mut Lent| ();
    assert_eq!(number_of(64, 32, 512, whole), FEW);
    for (n, l) in [(65, 1), (0, 1), (255, 1), (1, 33), (1, 0), (1, 255)] {
        assert_eq!(number_of(n, l, 1, whole), SHAPE);
    }
    assert_eq!(number_of(64, 32, 513, whole), LIST);
    assert_eq!(number_of(1, 1, 513, |lent| lent.scratch.clear()), LIST);
    assert_eq!(number_of(65, 1, 513, whole), SHAPE);

    let with = |m, shorten: fn(&mut Lent)| number_of(3, 2, m, shorten);
    assert_eq!(with(4, |_| ()), FEW);
    assert_eq!(with(4, |lent| lent.scratch.truncate(32_767)), ROOM);
    assert_eq!(with(4, |lent| lent.page.truncate(5)), ROOM);
    assert_eq!(with(4, |lent| lent.uses.truncate(3)), ROOM);
    assert_eq!(with(4, |lent| lent.roles.truncate(3)), ROOM);
    assert_eq!(with(0, |lent| lent.page.truncate(5)), ROOM);
}

#[test]
fn list_lengths_and_strays() {
    let mut rng = Rng(4);
    for extra in 1..13 {
        let mut lent = Lent::noise(&mut rng, 1, 1, 3);
        let before = lent.clone();
        assert_eq!(lent.read(1, 1, &vec![255; 13 + extra]).number, LIST);
        assert!(lent == before);
    }
    for n in 1..=64 {
        let top = 1 << (n - 1);
        let mut lent = Lent::noise(&mut rng, n, 1, 3);
        let inside = list_of(&[(0, top, 1), (1, top, 2)]);
        assert_ne!(lent.read(n, 1, &inside).number, STRAY);
        if n < 64 {
            let stray = list_of(&[(0, top, 1), (1, top << 1, 2), (1, top << 1, 2)]);
            let expected = Answer {
                number: STRAY,
                place: 1,
                ..Answer::default()
            };
            assert_eq!(lent.read(n, 1, &stray), expected);
            lent.scratch.clear();
            assert_eq!(lent.read(n, 1, &stray).number, ROOM);
        }
    }
}
