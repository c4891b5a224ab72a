//! Holds document 01's readings worked by hand, K1 to K12, with wish 3's seeds, and the edges it names.

use mekorvat::{marks, read_list, uses, Answer, Mark};

/// Constraint and payload of a row; where no seeds are given, they are 0, 1, 2 and so on.
type Row = (u64, u8);

/// A list of rows with payloads of one byte.
fn list_of(seeds: impl IntoIterator<Item = u32>, rows: &[Row]) -> Vec<u8> {
    let mut list = Vec::new();
    for (seed, (constraint, payload)) in seeds.into_iter().zip(rows) {
        list.extend(seed.to_be_bytes());
        list.extend(constraint.to_be_bytes());
        list.push(*payload);
    }
    list
}

/// What a reading with exact room gave.
struct Read {
    answer: Answer,
    page: Vec<u8>,
    marks: Vec<Mark>,
}

fn read(n: u8, list: &[u8]) -> Read {
    let m = list.len() / 13;
    let mut page = vec![170; usize::from(n)];
    let (mut pairs, mut roles) = (vec![170; 2 * m], vec![170; m]);
    let mut scratch = vec![170; 32_768];
    let answer = read_list(n, 1, list, &mut page, &mut pairs, &mut roles, &mut scratch);
    let marks: Vec<Mark> = marks(&pairs, &roles).collect();
    let cleared = scratch.iter().all(|&byte| byte == 0);
    assert_eq!(cleared, answer.fills_marks());
    if answer.fills_marks() {
        assert!(uses(&pairs).eq(marks.iter().map(|mark| mark.uses())));
    }
    if answer.number() != 0 {
        assert!(page.iter().all(|&byte| byte == 170));
        page.clear();
    }
    Read {
        answer,
        page,
        marks,
    }
}

/// Wants a page and its agreement, and these marks.
fn gives_page(n: u8, rows: &[Row], page: &[u8], agreement: usize, marks: &[Mark]) {
    let rank = marks.iter().filter(|mark| mark.role() != 0).count();
    let read = read(n, &list_of(0.., rows));
    assert_eq!(read.answer, Answer::Page { rank, agreement });
    assert_eq!(read.page, page);
    assert_eq!(read.marks, marks);
}

/// Wants an answer without page, and these marks.
fn gives(n: u8, rows: &[Row], answer: Answer, marks: &[Mark]) {
    let read = read(n, &list_of(0.., rows));
    assert_eq!(read.answer, answer);
    assert_eq!(read.marks, marks);
}

const NOT_KEPT: Mark = Mark::NotKept;

const fn kept(uses: u16) -> Mark {
    Mark::Kept { uses }
}

const fn picked(uses: u16) -> Mark {
    Mark::Picked { uses }
}

#[test]
fn k1() {
    gives(1, &[], Answer::Few { rank: 0 }, &[]);
}

#[test]
fn k2() {
    gives_page(1, &[(1, 7)], &[7], 1, &[picked(0)]);
}

#[test]
fn k3() {
    let rows = [(1, 7), (1, 9)];
    gives(1, &rows, Answer::Tie { rank: 2 }, &[kept(0), kept(0)]);
}

#[test]
fn k4() {
    let rows = [(1, 7), (1, 9), (1, 9)];
    gives_page(1, &rows, &[9], 2, &[kept(0), picked(1), NOT_KEPT]);
}

#[test]
fn k4_with_equal_seeds() {
    let rows = [(1, 7), (1, 9), (1, 9)];
    let read = read(1, &list_of([0, 1, 1], &rows));
    assert_eq!(read.answer, Answer::Tie { rank: 2 });
    assert_eq!(read.marks, [kept(0), kept(0), NOT_KEPT]);
}

#[test]
fn k5() {
    gives(1, &[(0, 7)], Answer::Singular { rank: 1 }, &[picked(0)]);
}

#[test]
fn k6() {
    gives_page(1, &[(1, 7), (0, 0)], &[7], 2, &[picked(0), NOT_KEPT]);
}

#[test]
fn k7() {
    let rows = [(3, 1), (1, 3), (3, 2), (2, 1), (1, 0)];
    let marks = [kept(1), picked(2), picked(2), NOT_KEPT, NOT_KEPT];
    gives_page(2, &rows, &[3, 1], 3, &marks);
}

#[test]
fn k8() {
    let rows = [(1, 3), (2, 1), (3, 1), (3, 2), (1, 0)];
    let marks = [kept(1), kept(2), kept(1), NOT_KEPT, NOT_KEPT];
    gives(2, &rows, Answer::Tie { rank: 3 }, &marks);
}

#[test]
fn k9() {
    let rows = [(3, 13), (1, 6), (3, 14), (2, 8), (1, 5)];
    let marks = [kept(1), picked(2), picked(2), NOT_KEPT, NOT_KEPT];
    gives_page(2, &rows, &[6, 8], 3, &marks);
}

#[test]
fn k10() {
    // Nothing is written, and 170 is no role.
    gives(1, &[(2, 7)], Answer::Stray { place: 0 }, &[]);
}

#[test]
fn k11() {
    let rows = [(1, 4), (1, 5)];
    gives(
        2,
        &rows,
        Answer::Singular { rank: 2 },
        &[picked(0), picked(0)],
    );
}

#[test]
fn k12() {
    gives(2, &[(1, 4)], Answer::Few { rank: 1 }, &[kept(0)]);
}

/// The number of a reading of m all-zero rows with this much scratch: 5 if it is not refused.
fn number_of(n: u8, l: u8, m: usize, scratch: usize) -> u8 {
    let list = vec![0; (12 + usize::from(l)) * m];
    let mut page = vec![0; usize::from(n) * usize::from(l)];
    let (mut uses, mut roles) = (vec![0; 2 * m], vec![0; m]);
    let mut scratch = vec![0; scratch];
    read_list(n, l, &list, &mut page, &mut uses, &mut roles, &mut scratch).number()
}

#[test]
fn edges() {
    let n_64 = [64, 65, 0].map(|n| number_of(n, 1, 1, 32_768));
    assert_eq!(n_64, [5, 1, 1]);
    let l_32 = [32, 33].map(|l| number_of(1, l, 1, 32_768));
    assert_eq!(l_32, [5, 1]);
    let m_512 = [512, 513].map(|m| number_of(1, 1, m, 32_768));
    assert_eq!(m_512, [5, 2]);
    let scratch = [32_768, 32_767].map(|scratch| number_of(1, 1, 1, scratch));
    assert_eq!(scratch, [5, 3]);
}
