//! Holds the comparison of layings, with the list compared whole afterwards.

use std::fmt;

use plain::number::*;
use plain::rng::Rng;

use crate::buffer::{noise, Buffer};
use crate::case::{agree, same, same_bytes, word, Case, Words};
use crate::frames::{frame_of, spoil};
use crate::rounds::{assert_frequent, rounds};

const ROUNDS: usize = 200_000;

/// All that a laying is given.
pub struct LayCase {
    pub frame: Vec<u8>,
    pub expected: mekorvat::PageId,
    pub arrival: usize,
    pub list_length: usize,
    /// The seed of the noise that the list is filled with.
    pub noise: u64,
}

impl Case for LayCase {
    type Answered = u8;

    fn compare(&self) -> Result<u8, String> {
        let mekorvat::PageId { page_number, n, l } = self.expected;
        let (frame, arrival) = (&self.frame, self.arrival);
        let frame_before = frame.clone();
        let mut by_plain = Buffer::of_noise(&mut Rng(self.noise), self.list_length);
        let mut by_boundary = by_plain.clone();
        let mut by_types = by_plain.clone();

        let expected = plain::frame::lay(frame, page_number, n, l, arrival, by_plain.lent());

        let mut place = usize::MAX;
        let list = by_boundary.lent();
        let number = mekorvat::boundary::lay(frame, page_number, n, l, arrival, list, &mut place);
        same("number, place", (number, place), expected)?;
        by_boundary.same_as("list", &by_plain)?;

        let laid = mekorvat::lay(frame, self.expected, arrival, by_types.lent());
        let numbers = laid.map_or_else(|refusal| (refusal.number(), refusal.place()), |()| (0, 0));
        same("the answer in types", numbers, expected)?;
        by_types.same_as("list", &by_plain)?;
        same_bytes("frame", frame, &frame_before)?;
        Ok(expected.0)
    }

    fn of_words(words: &mut Words) -> Self {
        LayCase {
            frame: words.bytes(),
            expected: mekorvat::PageId {
                page_number: words.number() as u32,
                n: words.byte(),
                l: words.byte(),
            },
            arrival: words.length(),
            list_length: words.length(),
            noise: words.number(),
        }
    }
}

impl fmt::Display for LayCase {
    fn fmt(&self, f: &mut fmt::Formatter) -> fmt::Result {
        let mekorvat::PageId { page_number, n, l } = self.expected;
        let (frame, arrival) = (word(&self.frame), self.arrival);
        let (list_length, noise) = (self.list_length, self.noise);
        write!(
            f,
            "lay {frame} {page_number:x} {n:x} {l:x} {arrival:x} {list_length:x} {noise:x}"
        )
    }
}

fn random_case(rng: &mut Rng) -> LayCase {
    let (n, l) = (1 + rng.below(64) as u8, 1 + rng.below(32) as u8);
    let payload = noise(rng, usize::from(l));
    let page_number = rng.draw() as u32;
    let mut frame = frame_of(page_number, n, l, rng.draw() as u32, &payload);
    let mut expected = mekorvat::PageId { page_number, n, l };
    match rng.below(16) {
        0 => expected.n = rng.draw() as u8,
        1 => expected.l = rng.draw() as u8,
        2 => expected.page_number ^= 1 << rng.below(32),
        3..=6 => spoil(rng, &mut frame),
        _ => (),
    }
    let arrival = match rng.below(16) {
        0 => 505 + rng.below(10),
        // The last of these reach the list's start again if a product wraps.
        1 => [512, 1 << 32, usize::MAX, 1 << 61][rng.below(4)],
        _ => rng.below(8),
    };
    let row_bytes = expected.row_bytes();
    let end = row_bytes * (arrival.min(514) + 1);
    let list_length = match rng.below(8) {
        0 => end - 1 - rng.below(end),
        1 => end - 1,
        2 => end,
        _ => end + rng.below(3 * row_bytes),
    };
    LayCase {
        frame,
        expected,
        arrival,
        list_length,
        noise: rng.draw(),
    }
}

#[test]
fn random_layings() {
    let seen = rounds("layings", ROUNDS, |_, rng| agree(&random_case(rng)));
    let all = [
        DONE,
        SHAPE,
        LIST,
        ROOM,
        SHORT,
        TAG,
        FIELD_LENGTH,
        FRAME_SHAPE,
        TRAILING,
        OTHER_PAGE,
    ];
    assert_frequent(&seen, &all);
}

/// The seed, the constraint, the payload, and not a byte more.
#[test]
fn a_row_in_the_middle() {
    let frame = frame_of(212, 1, 2, 0x0102_0304, &[7, 9]);
    let id = mekorvat::PageId {
        page_number: 212,
        n: 1,
        l: 2,
    };
    let mut list = [170; 3 * 14];
    assert_eq!(mekorvat::lay(&frame, id, 1, &mut list), Ok(()));
    let row = [1, 2, 3, 4, 0, 0, 0, 0, 0, 0, 0, 1, 7, 9];
    assert_eq!(list[..14], [170; 14]);
    assert_eq!(list[14..28], row);
    assert_eq!(list[28..], [170; 14]);
}

#[test]
fn every_edge() {
    let mut rng = Rng(4);
    let frame = frame_of(212, 2, 3, 1, &[0, 170, 255]);
    for n in [0, 1, 2, 64, 65, 255] {
        for l in [0, 1, 3, 32, 33, 255] {
            for arrival in [0, 1, 510, 511, 512, 513, usize::MAX] {
                let expected = mekorvat::PageId {
                    page_number: 212,
                    n,
                    l,
                };
                let end = expected.row_bytes() * (arrival.min(513) + 1);
                for list_length in [0, end - 1, end, end + 1] {
                    for length in [0, 2, 24, 25] {
                        agree(&LayCase {
                            frame: frame[..length].to_vec(),
                            expected,
                            arrival,
                            list_length,
                            noise: rng.draw(),
                        });
                    }
                }
            }
        }
    }
}
