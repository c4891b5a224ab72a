//! Holds the tests of drawing, and of frames written, read, made into rows and laid.

use super::*;
use crate::draw::constraint;
use crate::frame::{lay, make, read, write, FrameReading};
use crate::page;

fn bytes(hex: &str) -> Vec<u8> {
    let digits = (0..hex.len()).step_by(2).map(|i| &hex[i..i + 2]);
    digits
        .map(|pair| u8::from_str_radix(pair, 16).unwrap())
        .collect()
}

#[test]
fn drawing() {
    for seed in [0, 1, 7, u32::MAX] {
        assert_eq!(constraint(0, seed), None);
        assert_eq!(constraint(65, seed), None);
        assert_eq!(constraint(1, seed), Some(1));
        let all = constraint(64, seed).unwrap();
        for n in 2..64 {
            let low = all % (1 << n);
            let expected = if low == 0 {
                1 << (seed % u32::from(n))
            } else {
                low
            };
            assert_eq!(constraint(n, seed), Some(expected));
        }
    }
    assert_eq!(constraint(64, 0), Some(0x1a9b_6c07_9a55_0895));
    assert_eq!(constraint(64, u32::MAX), Some(0xbea8_325d_b428_f0f3));
    // The first odd seed that draws zero for two symbols.
    let fell_back = |seed: &u32| constraint(64, *seed).unwrap() & 3 == 0;
    let seed = (1..).step_by(2).find(fell_back).unwrap();
    assert_eq!(constraint(2, seed), Some(2));
}

#[test]
fn example_of_the_program() {
    let frames = [
        "0100040000000502000201010300040000000004000107",
        "0100040000000502000201010300040000000104000109",
        "0100040000000502000201010300040000000204000109",
    ];
    let mut list = vec![0; 39];
    for (arrival, frame) in frames.into_iter().enumerate() {
        assert_eq!(lay(&bytes(frame), 5, 1, 1, arrival, &mut list), (DONE, 0));
    }
    assert_eq!(list, list_of(&[(0, 1, 7), (1, 1, 9), (2, 1, 9)]));
    let refused = FrameReading {
        number: SHORT,
        place: 2,
        ..FrameReading::default()
    };
    assert_eq!(read(&bytes("0100")), refused);
}

#[test]
fn frames_written_read_and_laid() {
    let mut rng = Rng(8);
    for _ in 0..500 {
        let (n, l) = (1 + rng.below(64) as u8, 1 + rng.below(32) as u8);
        let (page_number, seed) = (rng.draw() as u32, rng.draw() as u32);
        let page = rng.bytes(page::length(n, l));
        let before = rng.bytes(60);
        let mut frame = before.clone();
        assert_eq!(write(page_number, n, l, seed, &page, &mut frame), (DONE, 0));
        let length = 22 + usize::from(l);
        assert_eq!(frame[length..], before[length..]);
        frame.truncate(length);

        let payload = 22..length;
        let expected = FrameReading {
            number: DONE,
            place: 0,
            page_number,
            n,
            l,
            seed,
            payload,
        };
        assert_eq!(read(&frame), expected);

        let row_length = row_length(l);
        let mut row = before.clone();
        let drawn = constraint(n, seed).unwrap();
        assert_eq!(make(n, l, seed, drawn, &page, &mut row), (DONE, 0));
        assert_eq!(row[row_length..], before[row_length..]);
        assert_eq!(row[..4], seed.to_be_bytes());
        assert_eq!(row[4..12], drawn.to_be_bytes());
        assert_eq!(row[12..row_length], page::sum(drawn, usize::from(l), &page));

        let mut list = rng.bytes(4 * row_length);
        let mut expected = list.clone();
        expected[2 * row_length..3 * row_length].copy_from_slice(&row[..row_length]);
        assert_eq!(lay(&frame, page_number, n, l, 2, &mut list), (DONE, 0));
        assert_eq!(list, expected);
    }
}

#[test]
fn frame_refusals() {
    let good = bytes("010004000000d402000202030300040000000104000300aaff");
    assert_eq!(read(&good).number, DONE);
    for cut in 0..good.len() {
        let reading = read(&good[..cut]);
        assert_eq!((reading.number, reading.place), (SHORT, cut));
    }
    let changed = |position: usize, byte: u8| {
        let mut frame = good.clone();
        frame[position] = byte;
        let reading = read(&frame);
        let (number, place) = (reading.number, reading.place);
        assert_eq!(
            reading,
            FrameReading {
                number,
                place,
                ..FrameReading::default()
            }
        );
        (number, place)
    };
    for start in [0, 7, 12, 19] {
        assert_eq!(changed(start, 9), (TAG, start));
        assert_eq!(changed(start + 1, 1), (FIELD_LENGTH, start + 1));
        assert_eq!(changed(start + 2, 0), (FIELD_LENGTH, start + 1));
    }
    for (position, byte) in [(10, 0), (10, 65), (11, 0), (11, 33)] {
        assert_eq!(changed(position, byte), (FRAME_SHAPE, 7));
    }
    // The payload's length must be the frame's own L.
    assert_eq!(changed(11, 4), (FIELD_LENGTH, 20));
    let trailing = read(&[&good[..], &[0, 0]].concat());
    assert_eq!((trailing.number, trailing.place), (TRAILING, 25));
    // Under 3 bytes are short, whatever they say.
    assert_eq!(
        (read(&[9, 9]).number, read(&[9, 9, 9]).number),
        (SHORT, TAG)
    );
}

#[test]
fn refusals_in_order_write_nothing() {
    let page = [7; 6];
    let mut room = [170; 64];
    for (n, l, page, room_length, number) in [
        (0, 3, &page[..], 0, SHAPE),
        (65, 3, &page[..], 64, SHAPE),
        (2, 33, &page[..], 64, SHAPE),
        (2, 3, &page[..5], 0, PAGE_LENGTH),
        (2, 3, &page[..], 14, ROOM),
    ] {
        assert_eq!(
            write(1, n, l, 1, page, &mut room[..room_length]),
            (number, 0)
        );
        assert_eq!(
            make(n, l, 5, 1, page, &mut room[..room_length]),
            (number, 0)
        );
    }
    assert_eq!(write(1, 2, 3, 1, &page, &mut room[..24]), (ROOM, 0));
    assert_eq!(make(2, 3, 5, 4, &page[..5], &mut room), (PAGE_LENGTH, 0));
    assert_eq!(make(2, 3, 5, 4, &page, &mut room[..14]), (STRAY, 0));

    let good = bytes("010004000000d402000202030300040000000104000300aaff");
    assert_eq!(lay(&good[..24], 9, 2, 33, 512, &mut room[..0]), (SHAPE, 0));
    assert_eq!(lay(&good[..24], 9, 2, 3, 512, &mut room[..0]), (SHORT, 24));
    for (page_number, n, l) in [(9, 2, 3), (212, 1, 3), (212, 2, 4)] {
        assert_eq!(
            lay(&good, page_number, n, l, 512, &mut room[..0]),
            (OTHER_PAGE, 0)
        );
    }
    assert_eq!(lay(&good, 212, 2, 3, 512, &mut room[..0]), (LIST, 0));
    assert_eq!(lay(&good, 212, 2, 3, usize::MAX, &mut room[..0]), (LIST, 0));
    assert_eq!(lay(&good, 212, 2, 3, 511, &mut room), (ROOM, 0));
    assert_eq!(lay(&good, 212, 2, 3, 1, &mut room[..29]), (ROOM, 0));
    assert_eq!(room, [170; 64]);
}
