//! Holds the list reader that turns the list on its side, as a check on row-by-row elimination.
//!
//! Each list row, its seed left out, is a column, and each bit position of it is an equation over these columns.
//! Adding one equation to another and swapping two change no relation between columns: the same
//! sets of columns sum to zero afterwards. In reduced echelon form, with pivot columns chosen left
//! to right, the pivot column of an equation has its only one there. So
//! - a pivot column has a one in an equation in which all columns to its left have none: it is no
//!   sum of them, and its row is kept;
//! - any other column has ones only in equations whose pivot lies to its left: it is the sum of
//!   these pivot columns, and its ones name the set of kept rows of its row.

use crate::list::{record, refusal, row_length, split, split_seed, MOST_ROWS};
use crate::number::*;
use crate::page;

pub use crate::list::Answer;

/// One bit for each column.
type Equation = [u64; MOST_ROWS / 64];

/// A system in reduced echelon form.
struct Reduced {
    /// The pivot column of each equation, left to right.
    pivots: Vec<usize>,
    equations: Vec<Equation>,
}

/// Reads a list as document 01 says under "How a list is read".
pub fn read_list(
    n: u8,
    l: u8,
    list: &[u8],
    page: &mut [u8],
    uses: &mut [u16],
    roles: &mut [u8],
    scratch: &mut [u8],
) -> Answer {
    if let Some(refused) = refusal(n, l, list, page, uses, roles, scratch) {
        return refused;
    }
    let rows: Vec<&[u8]> = list.chunks_exact(row_length(l)).collect();
    let counting = counting(&rows);
    let (n, l) = (usize::from(n), usize::from(l));

    // As no constraint strays, the equations of bits worth 2^n or more are empty.
    let columns: Vec<&[u8]> = rows.iter().map(|row| split_seed(row).1).collect();
    let Reduced {
        pivots: kept,
        equations,
    } = reduce(&columns);
    let counts: Vec<u16> = equations
        .iter()
        .map(|equation| count_uses(equation, &counting))
        .collect();
    record(rows.len(), &kept, &counts, uses, roles, scratch);

    let rank = kept.len();
    if rank < n {
        return Answer::without_page(FEW, rank);
    }
    let Some(pick) = pick(n, &counts) else {
        return Answer::without_page(TIE, rank);
    };
    let picked: Vec<usize> = pick.iter().map(|&kept_place| kept[kept_place]).collect();
    for &arrival in &picked {
        roles[arrival] = 2;
    }
    let picked_rows: Vec<&[u8]> = picked.iter().map(|&arrival| columns[arrival]).collect();
    let Some(solved) = solve(n, l, &picked_rows) else {
        return Answer::without_page(SINGULAR, rank);
    };
    page[..n * l].copy_from_slice(&solved);
    Answer {
        number: DONE,
        rank,
        place: 0,
        agreement: (0..rows.len())
            .filter(|&arrival| has(&counting, arrival) && agrees(rows[arrival], &solved))
            .count(),
    }
}

/// The columns of the rows that count: of all but those equal to an earlier one, seed and all.
fn counting(rows: &[&[u8]]) -> Equation {
    let mut counting = Equation::default();
    for (arrival, row) in rows.iter().enumerate() {
        let repeat = rows[..arrival].contains(row);
        counting[arrival / 64] |= u64::from(!repeat) << (arrival % 64);
    }
    counting
}

/// How many rows of the list count and do not agree with a page.
pub fn disagreeing(l: u8, list: &[u8], page: &[u8]) -> usize {
    let rows: Vec<&[u8]> = list.chunks_exact(row_length(l)).collect();
    let counting = counting(&rows);
    (0..rows.len())
        .filter(|&arrival| has(&counting, arrival) && !agrees(rows[arrival], page))
        .count()
}

/// The uses of the kept row that is this equation's pivot column.
fn count_uses(equation: &Equation, counting: &Equation) -> u16 {
    let both = equation.iter().zip(counting);
    let ones: u32 = both
        .map(|(ones, counting)| (ones & counting).count_ones())
        .sum();
    // All ones but the pivot's own are in columns of rows not kept. A kept row is no repeat.
    (ones - 1) as u16
}

/// The kept places of the n rows with most uses, or None when these are not unique.
fn pick(n: usize, counts: &[u16]) -> Option<Vec<usize>> {
    let mut places: Vec<usize> = (0..counts.len()).collect();
    places.sort_by_key(|&place| std::cmp::Reverse(counts[place]));
    let (inside, outside) = places.split_at(n);
    let smallest_inside = counts[inside[n - 1]];
    // With r = n nothing is outside, and there is no tie to look for.
    let tie = outside
        .first()
        .is_some_and(|&place| counts[place] >= smallest_inside);
    (!tie).then(|| inside.to_vec())
}

/// The page that the n picked rows agree with, or None when their constraints are dependent.
///
/// The constraints that name one symbol each follow as n further columns, which bring the rank to
/// n in any case. If the picked constraints are independent, none of these gets a pivot, and the
/// ones in symbol k's column name the picked rows that sum to symbol k.
fn solve(n: usize, l: usize, picked: &[&[u8]]) -> Option<Vec<u8>> {
    let symbols: Vec<[u8; 8]> = (0..n).map(|k| (1u64 << k).to_be_bytes()).collect();
    let constraints = picked.iter().map(|row| &row[..8]);
    let columns: Vec<&[u8]> = constraints.chain(symbols.iter().map(|s| &s[..])).collect();
    let Reduced { pivots, equations } = reduce(&columns);
    if pivots.iter().any(|&column| column >= n) {
        return None;
    }
    let mut page = vec![0; n * l];
    for (k, symbol) in page.chunks_exact_mut(l).enumerate() {
        for (equation, row) in equations.iter().zip(picked) {
            if has(equation, n + k) {
                page::xor(symbol, &row[8..]);
            }
        }
    }
    Some(page)
}

/// Whether the row's payload is the exclusive-or of the symbols its constraint names.
pub(crate) fn agrees(row: &[u8], page: &[u8]) -> bool {
    let (constraint, payload) = split(row);
    page::sum(constraint, payload.len(), page) == payload
}

fn has(equation: &Equation, column: usize) -> bool {
    equation[column / 64] >> (column % 64) & 1 == 1
}

/// Brings the equations of these columns to reduced echelon form and drops the empty ones.
fn reduce(columns: &[&[u8]]) -> Reduced {
    let mut equations = equations(columns);
    let mut pivots = Vec::new();
    for column in 0..columns.len() {
        let next = pivots.len();
        let Some(found) = (next..equations.len()).find(|&i| has(&equations[i], column)) else {
            continue;
        };
        equations.swap(next, found);
        let pivot = equations[next];
        for (i, equation) in equations.iter_mut().enumerate() {
            if i != next && has(equation, column) {
                for (word, other) in equation.iter_mut().zip(pivot) {
                    *word ^= other;
                }
            }
        }
        pivots.push(column);
    }
    equations.truncate(pivots.len());
    Reduced { pivots, equations }
}

/// One equation for each bit position of the columns, which are equally long.
fn equations(columns: &[&[u8]]) -> Vec<Equation> {
    let positions = columns.first().map_or(0, |column| 8 * column.len());
    let mut equations = vec![Equation::default(); positions];
    for (j, column) in columns.iter().enumerate() {
        for (position, equation) in equations.iter_mut().enumerate() {
            let bit = column[position / 8] >> (position % 8) & 1;
            equation[j / 64] |= u64::from(bit) << (j % 64);
        }
    }
    equations
}
