//! Holds the comparison of frame readings: good, altered, cut and extended frames, and noise.

use std::fmt;

use plain::number::*;
use plain::rng::Rng;
use plain::table::base_frames;

use crate::buffer::{noise, some_noise};
use crate::case::{agree, same, same_bytes, word, Case, Words};
use crate::rounds::{assert_frequent, rounds};

const ROUNDS: usize = 400_000;

/// All that a frame reading is given.
pub struct FrameCase {
    pub frame: Vec<u8>,
}

/// Number, place, page number, n, L, seed and the payload's offset.
type Numbers = (u8, usize, u32, u8, u8, u32, usize);

fn read_by_boundary(frame: &[u8]) -> Numbers {
    // No refusal has these numbers, so one that is not set shows.
    let (mut place, mut offset) = (usize::MAX, usize::MAX);
    let (mut page_number, mut seed) = (0xAAAA_AAAA, 0x5555_5555);
    let (mut n, mut l) = (u8::MAX, u8::MAX);
    let number = mekorvat::boundary::read_frame(
        frame,
        &mut place,
        &mut page_number,
        &mut n,
        &mut l,
        &mut seed,
        &mut offset,
    );
    (number, place, page_number, n, l, seed, offset)
}

/// The numbers that the typed answer stands for, and the part of the frame that it shows.
fn read_by_types(frame: &[u8]) -> (Numbers, &[u8]) {
    match mekorvat::read_frame(frame) {
        Ok(read) => {
            let offset = read.payload.as_ptr() as usize - frame.as_ptr() as usize;
            let mekorvat::PageId { page_number, n, l } = read.id;
            ((0, 0, page_number, n, l, read.seed, offset), read.payload)
        }
        Err(refusal) => {
            let (number, place) = (refusal.number(), refusal.place());
            ((number, place, 0, 0, 0, 0, 0), &frame[..0])
        }
    }
}

impl Case for FrameCase {
    type Answered = u8;

    fn compare(&self) -> Result<u8, String> {
        let before = self.frame.clone();
        let read = plain::frame::read(&self.frame);
        let expected = (
            read.number,
            read.place,
            read.page_number,
            read.n,
            read.l,
            read.seed,
            read.payload.start,
        );
        same("the numbers", read_by_boundary(&self.frame), expected)?;
        let (numbers, payload) = read_by_types(&self.frame);
        same("the answer in types", numbers, expected)?;
        same_bytes("payload", payload, &self.frame[read.payload])?;
        same_bytes("frame", &self.frame, &before)?;
        Ok(read.number)
    }

    fn of_words(words: &mut Words) -> Self {
        FrameCase {
            frame: words.bytes(),
        }
    }
}

impl fmt::Display for FrameCase {
    fn fmt(&self, f: &mut fmt::Formatter) -> fmt::Result {
        write!(f, "frame {}", word(&self.frame))
    }
}

/// A good frame with any payload.
pub fn frame_of(page_number: u32, n: u8, l: u8, seed: u32, payload: &[u8]) -> Vec<u8> {
    let fields: [(u8, &[u8]); 4] = [
        (1, &page_number.to_be_bytes()),
        (2, &[n, l]),
        (3, &seed.to_be_bytes()),
        (4, payload),
    ];
    let mut frame = Vec::new();
    for (tag, value) in fields {
        frame.extend([tag, 0, value.len() as u8]);
        frame.extend(value);
    }
    frame
}

/// Turns a good frame into one that is most often refused.
pub fn spoil(rng: &mut Rng, frame: &mut Vec<u8>) {
    let alter = |rng: &mut Rng, frame: &mut Vec<u8>| {
        let at = rng.below(frame.len());
        frame[at] = rng.draw() as u8;
    };
    match rng.below(7) {
        0 => alter(rng, frame),
        1 => {
            alter(rng, frame);
            alter(rng, frame);
        }
        // n and L, at and past their edges.
        2 => frame[10 + rng.below(2)] = [0, 1, 32, 33, 64, 65, 255][rng.below(7)],
        3 => frame.truncate(rng.below(frame.len())),
        4 => frame.extend(some_noise(rng, 10)),
        5 => {
            frame.truncate(rng.below(frame.len()));
            frame.extend(some_noise(rng, 60));
        }
        _ => *frame = some_noise(rng, 80),
    }
}

#[test]
fn random_frames() {
    let seen = rounds("frames", ROUNDS, |_, rng| {
        let (n, l) = (1 + rng.below(64) as u8, 1 + rng.below(32) as u8);
        let payload = noise(rng, usize::from(l));
        let mut frame = frame_of(rng.draw() as u32, n, l, rng.draw() as u32, &payload);
        if rng.below(4) != 0 {
            spoil(rng, &mut frame);
        }
        agree(&FrameCase { frame })
    });
    let all = [DONE, SHORT, TAG, FIELD_LENGTH, FRAME_SHAPE, TRAILING];
    assert_frequent(&seen, &all);
}

#[test]
fn every_byte_changed() {
    for base in base_frames() {
        for at in 0..base.frame.len() {
            for byte in 0..=255 {
                let mut frame = base.frame.clone();
                frame[at] = byte;
                agree(&FrameCase { frame });
            }
        }
    }
}

#[test]
fn every_cut_and_extension() {
    for base in base_frames() {
        for length in 0..base.frame.len() {
            let cut = base.frame[..length].to_vec();
            for at in 0..length {
                let mut frame = cut.clone();
                frame[at] ^= 1;
                agree(&FrameCase { frame });
            }
            agree(&FrameCase { frame: cut });
        }
        for extra in 0..300 {
            let mut frame = base.frame.clone();
            frame.resize(frame.len() + extra, extra as u8);
            agree(&FrameCase { frame });
        }
    }
}
