//! Holds the tests, and the noise-filled buffers that they lend to both list readers.

mod agreeing;
mod definition;
mod frames;
mod known;
mod repeats;
mod stores;

use crate::list::{row_length, Answer, SCRATCH};
use crate::number::*;
use crate::rng::Rng;
use crate::{reading, straight};

type Reader = fn(u8, u8, &[u8], &mut [u8], &mut [u16], &mut [u8], &mut [u8]) -> Answer;

/// The buffers lent to a reading besides the list.
#[derive(Clone, Debug, PartialEq, Eq)]
struct Lent {
    page: Vec<u8>,
    uses: Vec<u16>,
    roles: Vec<u8>,
    scratch: Vec<u8>,
}

impl Lent {
    /// Noise in buffers that are somewhat longer than a reading of m rows needs.
    fn noise(rng: &mut Rng, n: u8, l: u8, m: usize) -> Self {
        let surplus = rng.below(4);
        Lent {
            page: rng.bytes(usize::from(n) * usize::from(l) + surplus),
            uses: (0..m + surplus).map(|_| rng.draw() as u16).collect(),
            roles: rng.bytes(m + surplus),
            scratch: rng.bytes(SCRATCH + surplus),
        }
    }

    fn read_with(&mut self, reader: Reader, n: u8, l: u8, list: &[u8]) -> Answer {
        let Lent {
            page,
            uses,
            roles,
            scratch,
        } = self;
        reader(n, l, list, page, uses, roles, scratch)
    }

    /// Wants the same answer and the same bytes from all readers.
    fn read(&mut self, n: u8, l: u8, list: &[u8]) -> Answer {
        let before = self.clone();
        let answer = self.read_with(reading::read_list, n, l, list);
        for reader in [straight::read_list as Reader, straight::read_list_by_heads] {
            let mut other = before.clone();
            assert_eq!(other.read_with(reader, n, l, list), answer);
            assert!(*self == other, "the readers left different bytes behind");
        }
        answer
    }

    /// Wants the bytes that a reading of m rows does not write as before, and the scratch cleared.
    fn assert_rest_stayed(&self, before: &Lent, number: u8, page_length: usize, m: usize) {
        if (SHAPE..=STRAY).contains(&number) {
            assert!(self == before);
            return;
        }
        let written = if number == DONE { page_length } else { 0 };
        assert_eq!(self.page[written..], before.page[written..]);
        assert_eq!(self.uses[m..], before.uses[m..]);
        assert_eq!(self.roles[m..], before.roles[m..]);
        assert!(self.scratch[..SCRATCH].iter().all(|&byte| byte == 0));
        assert_eq!(self.scratch[SCRATCH..], before.scratch[SCRATCH..]);
    }
}

/// Seed, constraint and payload of a row.
type Row = (u32, u64, u8);

/// Rows with the seeds 0, 1, 2 and so on.
fn numbered(pairs: &[(u64, u8)]) -> Vec<Row> {
    let seeds = (0..).zip(pairs);
    seeds.map(|(seed, &(c, p))| (seed, c, p)).collect()
}

/// A list of rows with payloads of one byte.
fn list_of(rows: &[Row]) -> Vec<u8> {
    let mut list = Vec::new();
    for (seed, constraint, payload) in rows {
        list.extend(seed.to_be_bytes());
        list.extend(constraint.to_be_bytes());
        list.push(*payload);
    }
    list
}
