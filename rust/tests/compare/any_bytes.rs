//! Holds calls on any bytes at all in place of a store: noise, and stores with bytes changed. Each
//! gets an answer, the refusals are those that the header asks for, and nothing is written but what
//! may be.

use std::fmt;

use mekorvat::{SCRATCH_BYTES, STORE_BYTES};
use plain::number::*;
use plain::page;
use plain::rng::Rng;
use plain::store::{Header, Store};

use crate::buffer::{noise, Buffer};
use crate::case::{agree, same, Case, Words};
use crate::lists::{Lengths, Lent};
use crate::random_stores::{random_shown, Shown};
use crate::rounds::{assert_frequent, tallies, Seen};
use crate::stores::{bytes_of, header_of, LIST_START};

const ROUNDS: usize = 8_000;

/// Odd, and wide, for writes that go far astray.
const MARGIN: usize = 4_103;

/// All that is drawn for one run of calls comes from a seed.
pub struct BytesCase {
    seed: u64,
}

/// The bytes lent for a store, and the frames that are offered to it.
struct Lending {
    store: Buffer,
    shown: Shown,
}

impl Lending {
    fn header(&mut self) -> Header {
        header_of(*self.store.lent().first_chunk().expect("65,536 bytes"))
    }

    /// What the header and the frame alone decide: number and place.
    fn offer(&mut self, rng: &mut Rng) -> Result<u8, String> {
        let frame = self.shown.frame(rng);
        let mut before = self.store.clone();
        let expected = Store::lent(STORE_BYTES, self.header()).offer(&frame);
        let mut place = usize::MAX;
        let number = mekorvat::boundary::offer(self.store.lent(), &frame, &mut place);
        same("number and place of an offer", (number, place), expected)?;
        if number == DONE {
            let (old, new) = (before.lent(), self.store.lent());
            old[..STORE_BYTES].copy_from_slice(&new[..STORE_BYTES]);
        }
        self.store.same_as("the store after an offer", &before)?;
        Ok(number)
    }

    fn ask(&mut self, rng: &mut Rng) -> Result<u8, String> {
        let store = self.store.clone();
        let header = self.header();
        let rows = usize::from(header.rows);
        let exact = Lengths::exact(header.n, header.l, rows.min(512));
        let (lengths, roomy) = random_lengths(rng, exact);
        let mut lent = Lent::within(MARGIN, lengths, rng.draw());
        let mut before = lent.clone();
        let [number, rank, place, agreement, told] = lent.ask_boundary(self.store.lent());
        same("the place of asking", place, 0)?;

        let refused = Store::lent(STORE_BYTES, header).refusal();
        let expected = refused.or((!roomy).then_some(ROOM));
        let number = number as u8;
        match expected {
            Some(expected) => {
                same("the refusal", number, expected)?;
                same("rank and agreement", (rank, agreement), (0, 0))?;
            }
            None => {
                let answers = [DONE, FEW, TIE, SINGULAR];
                same("that it is answered", answers.contains(&number), true)?;
                let page = page::length(header.n, header.l);
                before.take(&mut lent, number, page, rows);
            }
        }
        let rows = if refused.is_some() { 0 } else { rows };
        same("the rows told", told, rows)?;
        lent.same_as(&before)?;
        self.store.same_as("the store after asking", &store)?;
        Ok(number)
    }
}

/// Enough of each buffer, or of one too little; and which.
fn random_lengths(rng: &mut Rng, exact: Lengths) -> (Lengths, bool) {
    let mut lengths = exact;
    if rng.below(8) == 0 {
        let short = rng.below(4);
        let length = &mut lengths.each_mut()[short];
        let roomy = **length == 0;
        **length = length.saturating_sub(1 + rng.below(2));
        return (lengths, roomy);
    }
    for length in lengths.each_mut() {
        *length += rng.below(20);
    }
    (lengths, true)
}

impl Lent {
    /// Takes over what a reading of so many rows, with this answer, writes.
    fn take(&mut self, found: &mut Lent, number: u8, page: usize, rows: usize) {
        let page = if number == DONE { page } else { 0 };
        for (old, new, length) in [
            (&mut self.page, &mut found.page, page),
            (&mut self.uses, &mut found.uses, 2 * rows),
            (&mut self.roles, &mut found.roles, rows),
            (&mut self.scratch, &mut found.scratch, SCRATCH_BYTES),
        ] {
            old.lent()[..length].copy_from_slice(&new.lent()[..length]);
        }
    }
}

/// A store of this page that some frames were offered to.
fn made_store(rng: &mut Rng, shown: &mut Shown, length: usize) -> Buffer {
    let mut store = Buffer::within(rng, MARGIN, length);
    mekorvat::open(store.lent(), shown.id).unwrap();
    let most = [30, 30, 200, 600][rng.below(4)];
    for _ in 0..rng.below(most) {
        let _ = mekorvat::offer(store.lent(), &shown.frame(rng));
    }
    store
}

/// Changes some bytes: of the header, of the rows, of the working, or of a run of them.
fn damage(rng: &mut Rng, store: &mut [u8]) {
    let rows = usize::from(header_of(*store.first_chunk().unwrap()).rows);
    for _ in 0..1 + rng.below(6) {
        let at = match rng.below(6) {
            0 => 4 + rng.below(12),
            1 => 8 + rng.below(4),
            2 => LIST_START + rng.below(44 * rows.clamp(1, 512)),
            // The slots of the working, and what is behind them.
            3 => 32_768 + rng.below(25_600),
            4 => 58_368 + rng.below(7_168),
            _ => rng.below(STORE_BYTES),
        };
        let run = [1, 1, 1, 2, 80, 3_000][rng.below(6)].min(STORE_BYTES - at);
        match rng.below(4) {
            0 => store[at] ^= 1 << rng.below(8),
            1 => store[at..at + run].fill(0),
            2 => store[at..at + run].fill(255),
            _ => store[at..at + run].copy_from_slice(&noise(rng, run)),
        }
    }
}

/// Makes it a header of the page that is shown, with any number of rows.
fn mend_header(rng: &mut Rng, shown: &Shown, store: &mut [u8]) {
    let header = Header {
        page_number: shown.id.page_number,
        n: shown.id.n,
        l: shown.id.l,
        rows: [rng.below(513), 511, 512][rng.below(3)] as u16,
    };
    store[..8].copy_from_slice(&bytes_of(header));
}

fn random_lending(rng: &mut Rng) -> Lending {
    let length = STORE_BYTES + rng.below(4);
    let mut shown = match rng.below(40) {
        0 => Shown::new(rng, 64, 32),
        _ => random_shown(rng),
    };
    let mut store = match rng.below(4) {
        0 => Buffer::within(rng, MARGIN, length),
        _ => made_store(rng, &mut shown, length),
    };
    match rng.below(8) {
        0 => store.lent()[8..].fill([0, 255][rng.below(2)]),
        _ => damage(rng, store.lent()),
    }
    if rng.below(2) == 0 {
        mend_header(rng, &shown, store.lent());
    }
    Lending { store, shown }
}

impl Case for BytesCase {
    /// How often each number came of offers and asking.
    type Answered = [Seen; 2];

    fn compare(&self) -> Result<[Seen; 2], String> {
        let rng = &mut Rng(self.seed);
        let mut lending = random_lending(rng);
        let mut seen = [Seen::default(); 2];
        for _ in 0..4 {
            seen[1][usize::from(lending.ask(rng)?)] += 1;
            for _ in 0..rng.below(6) {
                seen[0][usize::from(lending.offer(rng)?)] += 1;
            }
        }
        Ok(seen)
    }

    fn of_words(words: &mut Words) -> Self {
        BytesCase {
            seed: words.number(),
        }
    }
}

impl fmt::Display for BytesCase {
    fn fmt(&self, f: &mut fmt::Formatter) -> fmt::Result {
        write!(f, "bytes {:x}", self.seed)
    }
}

#[test]
fn any_bytes() {
    let kinds = ["frames offered to any bytes", "any bytes asked"];
    let [offered, asked] = tallies(kinds, ROUNDS, |_, rng| {
        agree(&BytesCase { seed: rng.draw() })
    });
    let refusals = [SHORT, TAG, FIELD_LENGTH, FRAME_SHAPE, TRAILING, OTHER_PAGE];
    assert_frequent(&offered, &[DONE, LIST, HEADER]);
    assert_frequent(&offered, &refusals);
    assert_frequent(&asked, &[DONE, ROOM, HEADER, FEW, TIE, SINGULAR]);
}
