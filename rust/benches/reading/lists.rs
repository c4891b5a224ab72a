//! Holds the lists that are measured: their shapes, their kinds, and how their rows come about.

use plain::frame::make;
use plain::list::row_length;
use plain::rng::Rng;
use plain::{draw, page};

pub const ROWS: usize = 512;
/// Frames that are held, and how often a camera sees each of them: 510 rows.
pub const HELD: usize = 17;
pub const TIMES: usize = 30;

/// The n and L of a list.
pub type Shape = (u8, u8);

pub const LARGEST: Shape = (64, 32);
pub const SHAPES: [Shape; 4] = [LARGEST, (64, 8), (16, 32), (16, 8)];

/// How the rows of a list come about. In the first four all rows are different.
#[derive(Clone, Copy, PartialEq, Eq)]
pub enum Kind {
    Good,
    OneInTenWrong,
    TwoVersions,
    /// Good rows whose seeds do not follow each other.
    RandomSeeds,
    /// Few frames, each held on the screen for a while.
    Held,
    /// The same frames, shown one after the other, again and again.
    InTurn,
}

pub const KINDS: [Kind; 6] = [
    Kind::Good,
    Kind::OneInTenWrong,
    Kind::TwoVersions,
    Kind::RandomSeeds,
    Kind::Held,
    Kind::InTurn,
];

impl Kind {
    pub fn name(self) -> &'static str {
        match self {
            Kind::Good => "all good rows",
            Kind::OneInTenWrong => "one in ten wrong",
            Kind::TwoVersions => "two versions mixed",
            Kind::RandomSeeds => "good, random seeds",
            Kind::Held => "17 held 30 times",
            Kind::InTurn => "17 in turn 30 times",
        }
    }
}

pub fn random_list(rng: &mut Rng, shape: Shape, kind: Kind) -> Vec<u8> {
    match kind {
        Kind::Held => {
            let frames = different_rows(rng, shape, kind, HELD);
            let rows = frames.chunks_exact(row_length(shape.1));
            rows.flat_map(|row| row.repeat(TIMES)).collect()
        }
        Kind::InTurn => different_rows(rng, shape, kind, HELD).repeat(TIMES),
        _ => different_rows(rng, shape, kind, ROWS),
    }
}

/// Rows as frames carry them: constraints drawn from seeds, which follow each other as a phone that
/// shows a page takes them, unless the kind says otherwise.
fn different_rows(rng: &mut Rng, (n, l): Shape, kind: Kind, count: usize) -> Vec<u8> {
    let versions = [(); 2].map(|()| rng.bytes(page::length(n, l)));
    let mut list = vec![0; count * row_length(l)];
    let mut seed = rng.draw() as u32;
    for row in list.chunks_exact_mut(row_length(l)) {
        seed = match kind {
            Kind::RandomSeeds => rng.draw() as u32,
            _ => seed.wrapping_add(1),
        };
        let constraint = draw::constraint(n, seed).expect("n is in range");
        let version = match kind {
            Kind::TwoVersions => rng.below(2),
            _ => 0,
        };
        make(n, l, seed, constraint, &versions[version], row);
        if kind == Kind::OneInTenWrong && rng.below(10) == 0 {
            row[12..].copy_from_slice(&rng.bytes(usize::from(l)));
        }
    }
    list
}
