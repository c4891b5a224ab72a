//! Holds the comparison of stores on random sequences of calls, with every refusal among them.

use mekorvat::{PageId, STORE_BYTES};
use plain::list::MOST_ROWS;
use plain::number::*;
use plain::rng::Rng;
use plain::store::{Header, Store};

use crate::buffer::noise;
use crate::case::agree;
use crate::frames::spoil;
use crate::lists::Lengths;
use crate::rounds::{assert_frequent, tallies};
use crate::stores::{bytes_of, Step, StoreCase};

const ROUNDS: usize = 3_000;

/// What a phone shows: frames of one page, or of two versions of it.
pub struct Shown {
    pub id: PageId,
    versions: Vec<Vec<u8>>,
    /// How many there are; where these are few, rows often have the same and differ in the rest, or
    /// not.
    seeds: usize,
    frames: Vec<Vec<u8>>,
}

impl Shown {
    pub fn new(rng: &mut Rng, n: u8, l: u8) -> Self {
        let page_number = rng.draw() as u32;
        let page = |rng: &mut Rng| noise(rng, plain::page::length(n, l));
        Shown {
            id: PageId { page_number, n, l },
            versions: (0..1 + rng.below(2)).map(|_| page(rng)).collect(),
            seeds: [40, 1 << 32, 1 << 32][rng.below(3)],
            frames: Vec::new(),
        }
    }

    /// A good frame, one with a wrong payload, one shown before, one of another page, or a spoilt
    /// one.
    pub fn frame(&mut self, rng: &mut Rng) -> Vec<u8> {
        if !self.frames.is_empty() && rng.below(6) == 0 {
            return self.frames[rng.below(self.frames.len())].clone();
        }
        let PageId {
            mut page_number,
            mut n,
            mut l,
        } = self.id;
        let version = rng.below(self.versions.len());
        let mut page = self.versions[version].clone();
        match rng.below(60) {
            0 => page_number ^= 1 << rng.below(32),
            1 => (n, l) = (1 + rng.below(64) as u8, 1 + rng.below(32) as u8),
            _ => (),
        }
        page.resize(plain::page::length(n, l), 0);
        let mut frame = vec![0; 22 + usize::from(l)];
        let seed = rng.below(self.seeds) as u32;
        plain::frame::write(page_number, n, l, seed, &page, &mut frame);
        match rng.below(10) {
            0 => frame[22..].copy_from_slice(&noise(rng, usize::from(l))),
            1 => spoil(rng, &mut frame),
            _ => (),
        }
        self.frames.push(frame.clone());
        frame
    }
}

/// Mostly small, as then every answer is frequent.
pub fn random_shown(rng: &mut Rng) -> Shown {
    let (n, l) = match rng.below(20) {
        0 => (1 + rng.below(64) as u8, 1 + rng.below(32) as u8),
        _ => (1 + rng.below(8) as u8, 1 + rng.below(4) as u8),
    };
    Shown::new(rng, n, l)
}

/// A sequence on its way, and how the store stands that it leaves.
struct Maker<'a> {
    rng: &'a mut Rng,
    shown: Shown,
    store: Store,
    length: usize,
    steps: Vec<(usize, Step)>,
}

impl Maker<'_> {
    /// Sometimes too little of the store is lent.
    fn lend(&mut self) -> usize {
        match self.rng.below(80) {
            0 => self.rng.below(STORE_BYTES),
            1 => STORE_BYTES - 1,
            2 => STORE_BYTES,
            _ => self.length,
        }
    }

    /// Opens the store for the page that is shown, or is refused.
    fn open(&mut self) {
        let mut id = self.shown.id;
        match self.rng.below(12) {
            0 | 1 => id.n = [0, 65, 128, 255][self.rng.below(4)],
            2 | 3 => id.l = [0, 33, 64, 255][self.rng.below(4)],
            _ => (),
        }
        self.store.length = self.lend();
        self.store.open(id.page_number, id.n, id.l);
        self.steps.push((self.store.length, Step::Open(id)));
    }

    /// Whether the store is open for the page that is shown.
    fn is_open(&self) -> bool {
        let Header {
            page_number, n, l, ..
        } = self.store.header;
        self.shown.id == PageId { page_number, n, l }
    }

    fn offer(&mut self) {
        let frame = self.shown.frame(self.rng);
        self.store.length = self.lend();
        self.store.offer(&frame);
        self.steps.push((self.store.length, Step::Offer(frame)));
    }

    fn ask(&mut self) {
        let Header { n, l, rows, .. } = self.store.header;
        let mut lengths = Lengths::exact(n, l, usize::from(rows).min(MOST_ROWS));
        match self.rng.below(8) {
            0 | 1 => (),
            2 => {
                let short = self.rng.below(4);
                let length = &mut lengths.each_mut()[short];
                **length = length.saturating_sub(1 + self.rng.below(2));
            }
            _ => {
                for length in lengths.each_mut() {
                    *length += self.rng.below(20);
                }
            }
        }
        let step = Step::Ask(lengths, self.rng.draw());
        let lent = self.lend();
        self.steps.push((lent, step));
    }

    /// Puts n, L or the number of rows out of range for some calls.
    fn spoil_header(&mut self) {
        let whole = self.store.header;
        self.store.header = out_of_range(self.rng, whole);
        self.write_header();
        for _ in 0..1 + self.rng.below(3) {
            self.offer();
            self.ask();
        }
        self.store.header = whole;
        self.write_header();
    }

    fn write_header(&mut self) {
        let bytes = bytes_of(self.store.header);
        self.steps.push((self.length, Step::Write(bytes)));
    }
}

fn out_of_range(rng: &mut Rng, mut header: Header) -> Header {
    match rng.below(3) {
        0 => header.n = [0, 65, 128, 255][rng.below(4)],
        1 => header.l = [0, 33, 64, 255][rng.below(4)],
        _ => header.rows = [513, 514, 1_024, 65_535][rng.below(4)],
    }
    header
}

fn random_case(round: usize, rng: &mut Rng) -> StoreCase {
    // Some stores are filled, and not opened again before.
    let fills = round % 100 == 0;
    let offers = if fills { 640 } else { rng.below(60) };
    let length = STORE_BYTES + rng.below(4);
    let mut maker = Maker {
        shown: match round % 200 {
            0 => Shown::new(rng, 64, 32),
            _ => random_shown(rng),
        },
        store: Store::lent(length, out_of_range(rng, Header::default())),
        rng,
        length,
        steps: Vec::new(),
    };
    maker.write_header();
    for _ in 0..offers {
        match maker.rng.below(40) {
            0 if !fills => maker.shown = random_shown(maker.rng),
            1 if !fills => maker.open(),
            2 => maker.spoil_header(),
            3..=6 => maker.ask(),
            _ => (),
        }
        if !maker.is_open() && maker.rng.below(4) > 0 {
            maker.open();
        }
        maker.offer();
    }
    maker.ask();
    StoreCase {
        length,
        noise: maker.rng.draw(),
        steps: maker.steps,
    }
}

#[test]
fn random_sequences() {
    let kinds = ["stores opened", "frames offered to a store", "stores asked"];
    let [opened, offered, asked] =
        tallies(kinds, ROUNDS, |round, rng| agree(&random_case(round, rng)));
    assert!(offered.iter().sum::<usize>() > 100_000, "{offered:?}");
    assert_frequent(&opened, &[DONE, SHAPE, ROOM]);
    let refusals = [SHORT, TAG, FIELD_LENGTH, FRAME_SHAPE, TRAILING, OTHER_PAGE];
    assert_frequent(&offered, &[DONE, LIST, ROOM, HEADER]);
    assert_frequent(&offered, &refusals);
    assert_frequent(&asked, &[DONE, ROOM, HEADER, FEW, TIE, SINGULAR]);
}
