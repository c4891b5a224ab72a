//! Holds the straightforward list reader, Algorithm 2 of He and Cai, to compare speeds with.

use std::iter::successors;

use crate::list::{record, refusal, row_length, split_seed, Answer, MOST_ROWS};
use crate::number::*;

/// A row without its seed, its payload filled up with zero bytes to 32; or a set of up to 320 kept places.
type Words = [u64; 5];

/// A payload or a symbol, filled up with zero bytes to 32.
type Symbol = [u64; 4];

/// One for each bit of a row; there are never more kept rows.
const SLOTS: usize = 64 * 5;

/// A sum of kept rows, and the kept places of these rows (the paper's b and q).
#[derive(Clone, Default)]
struct Sum {
    row: Words,
    set: Words,
}

/// A sum's head is its first word that is not zero; the lowest one in the head gives its slot.
///
/// The next slot depends on the head of the last one alone. With HEADS it is looked up in a table
/// of heads, which is quicker than to find the sum first.
struct Basis<const HEADS: bool> {
    /// The sum in each slot; all zero in an empty one.
    sums: Vec<Sum>,
    /// With HEADS, the head of each of them.
    heads: [u64; SLOTS],
    /// The arrival number of each kept place.
    kept: Vec<usize>,
    /// The uses of each kept place, and zeros after them.
    uses: [u16; SLOTS],
}

impl<const HEADS: bool> Basis<HEADS> {
    fn new() -> Self {
        Basis {
            sums: vec![Sum::default(); SLOTS],
            heads: [0; SLOTS],
            kept: Vec::with_capacity(SLOTS),
            uses: [0; SLOTS],
        }
    }

    /// Takes the next row in: lines 4 to 22 of Algorithm 2, without moving rows about.
    fn take(&mut self, arrival: usize, mut row: Words) {
        let mut set = [0; 5];
        for word in 0..5 {
            let mut head = row[word];
            while head != 0 {
                let slot = 64 * word + head.trailing_zeros() as usize;
                let other = if HEADS {
                    self.heads[slot]
                } else {
                    self.sums[slot].row[word]
                };
                if other == 0 {
                    let kept_place = self.kept.len();
                    set[kept_place / 64] |= 1 << (kept_place % 64);
                    self.sums[slot] = Sum { row, set };
                    if HEADS {
                        self.heads[slot] = head;
                    }
                    self.kept.push(arrival);
                    return;
                }
                head ^= other;
                xor(&mut row, &self.sums[slot].row);
                xor(&mut set, &self.sums[slot].set);
            }
        }
        for (i, &places) in set.iter().enumerate() {
            for bit in ones(places) {
                self.uses[64 * i + bit] += 1;
            }
        }
    }

    /// The arrival numbers of the n rows with most uses, or None when not unique: line 26.
    fn pick(&self, n: usize) -> Option<Vec<usize>> {
        let mut falling = self.uses[..self.kept.len()].to_vec();
        falling.sort_unstable_by(|a, b| b.cmp(a));
        // If any threshold leaves exactly n rows, this one does; with r = n it always does.
        let threshold = falling[n - 1];
        let with_uses = self.kept.iter().zip(&self.uses);
        let picked: Vec<usize> = with_uses
            .filter(|&(_, &uses)| uses >= threshold)
            .map(|(&arrival, _)| arrival)
            .collect();
        (picked.len() == n).then_some(picked)
    }
}

/// Reads a list with the same answer and the same bytes written as the other reader.
pub fn read_list(
    n: u8,
    l: u8,
    list: &[u8],
    page: &mut [u8],
    uses: &mut [u16],
    roles: &mut [u8],
    scratch: &mut [u8],
) -> Answer {
    read::<false>(n, l, list, page, uses, roles, scratch)
}

/// The same with a table of heads, as the proved reader has one.
pub fn read_list_by_heads(
    n: u8,
    l: u8,
    list: &[u8],
    page: &mut [u8],
    uses: &mut [u16],
    roles: &mut [u8],
    scratch: &mut [u8],
) -> Answer {
    read::<true>(n, l, list, page, uses, roles, scratch)
}

fn read<const HEADS: bool>(
    n: u8,
    l: u8,
    list: &[u8],
    page: &mut [u8],
    uses: &mut [u16],
    roles: &mut [u8],
    scratch: &mut [u8],
) -> Answer {
    if let Some(refused) = refusal(n, l, list, page, uses, roles, scratch) {
        return refused;
    }
    let list: Vec<&[u8]> = list.chunks_exact(row_length(l)).collect();
    let (n, l) = (usize::from(n), usize::from(l));
    let counting = counting(&list);
    let rows: Vec<Words> = counting
        .iter()
        .map(|&arrival| words(list[arrival]))
        .collect();
    let mut basis = Basis::<HEADS>::new();
    for (&arrival, &row) in counting.iter().zip(&rows) {
        basis.take(arrival, row);
    }
    record(list.len(), &basis.kept, &basis.uses, uses, roles, scratch);

    let rank = basis.kept.len();
    if rank < n {
        return Answer::without_page(FEW, rank);
    }
    let Some(picked) = basis.pick(n) else {
        return Answer::without_page(TIE, rank);
    };
    for &arrival in &picked {
        roles[arrival] = 2;
    }
    let picked_rows = picked.iter().map(|&arrival| words(list[arrival])).collect();
    let Some(symbols) = solve(picked_rows) else {
        return Answer::without_page(SINGULAR, rank);
    };
    for (part, symbol) in page.chunks_exact_mut(l).zip(&symbols) {
        part.copy_from_slice(&bytes(symbol)[..l]);
    }
    Answer {
        number: DONE,
        rank,
        place: 0,
        agreement: rows.iter().filter(|row| agrees(row, &symbols)).count(),
    }
}

/// The arrival numbers of the rows that count: of all but the repeats of earlier ones.
///
/// A repeat is never kept and adds to nothing, so nothing is done with it. The rows that count stand
/// in chains by the last bits of their seeds, and a row is compared with those of its chain alone,
/// from the newest back.
fn counting(list: &[&[u8]]) -> Vec<usize> {
    const CHAINS: usize = 1_024;
    // The end of a chain is no arrival number.
    const END: u16 = u16::MAX;
    let mut newest = [END; CHAINS];
    let mut next_older = [END; MOST_ROWS];
    let mut counting = Vec::with_capacity(list.len());
    for (arrival, row) in list.iter().enumerate() {
        let chain = &mut newest[split_seed(row).0 as usize % CHAINS];
        let mut place = *chain;
        while place != END && list[usize::from(place)] != *row {
            place = next_older[usize::from(place)];
        }
        if place == END {
            next_older[arrival] = *chain;
            *chain = arrival as u16;
            counting.push(arrival);
        }
    }
    counting
}

/// Solves the n picked rows for the symbols, in the order of symbols.
fn solve(mut rows: Vec<Words>) -> Option<Vec<Symbol>> {
    for k in 0..rows.len() {
        let found = (k..rows.len()).find(|&i| rows[i][0] >> k & 1 == 1)?;
        rows.swap(k, found);
        let pivot = rows[k];
        for row in &mut rows {
            // All ones or zero: about half the rows name symbol k, and a branch would be slower.
            let mask = (row[0] >> k & 1).wrapping_neg();
            xor(row, &pivot.map(|word| word & mask));
        }
        // It has cancelled itself too.
        rows[k] = pivot;
    }
    Some(rows.into_iter().map(|[_, symbol @ ..]| symbol).collect())
}

/// Whether the symbols that the constraint names leave nothing of the payload.
fn agrees(row: &Words, symbols: &[Symbol]) -> bool {
    let [constraint, mut payload @ ..] = *row;
    for k in ones(constraint) {
        xor(&mut payload, &symbols[k]);
    }
    payload == [0; 4]
}

fn xor<const LENGTH: usize>(sum: &mut [u64; LENGTH], other: &[u64; LENGTH]) {
    for (word, other) in sum.iter_mut().zip(other) {
        *word ^= other;
    }
}

/// The places of the ones in a word, lowest first.
fn ones(word: u64) -> impl Iterator<Item = usize> {
    successors(Some(word), |rest| Some(rest & rest.wrapping_sub(1)))
        .take_while(|&rest| rest != 0)
        .map(|rest| rest.trailing_zeros() as usize)
}

fn words(row: &[u8]) -> Words {
    let (_, row) = split_seed(row);
    let mut padded = [0; 40];
    padded[..row.len()].copy_from_slice(row);
    std::array::from_fn(|i| u64::from_be_bytes(std::array::from_fn(|j| padded[8 * i + j])))
}

fn bytes(symbol: &Symbol) -> [u8; 32] {
    std::array::from_fn(|i| symbol[i / 8].to_be_bytes()[i % 8])
}
