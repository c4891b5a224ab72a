//! Holds the frame: reading, writing and laying one, and the making of a row.

use std::ops::Range;

use crate::draw;
use crate::list::{row_length, MOST_ROWS};
use crate::number::*;
use crate::page::{self, in_shape, strays};

/// What a frame says; under a refusal all but number and place are 0.
#[derive(Clone, Debug, Default, PartialEq, Eq)]
pub struct FrameReading {
    pub number: u8,
    pub place: usize,
    pub page_number: u32,
    pub n: u8,
    pub l: u8,
    pub seed: u32,
    /// Where in the frame the payload lies, as it is never copied; refused, the empty start.
    pub payload: Range<usize>,
}

/// Number and place of a refusal.
type Refusal = (u8, usize);

/// Reads a frame, left to right.
pub fn read(frame: &[u8]) -> FrameReading {
    read_fields(frame).unwrap_or_else(|(number, place)| FrameReading {
        number,
        place,
        ..FrameReading::default()
    })
}

fn read_fields(frame: &[u8]) -> Result<FrameReading, Refusal> {
    let page_number = field(frame, 0, 1, 4)?;
    let shape = field(frame, page_number.end, 2, 2)?;
    let (n, l) = (frame[shape.start], frame[shape.start + 1]);
    if !in_shape(n, l) {
        return Err((FRAME_SHAPE, page_number.end));
    }
    let seed = field(frame, shape.end, 3, 4)?;
    let payload = field(frame, seed.end, 4, usize::from(l))?;
    if frame.len() > payload.end {
        return Err((TRAILING, payload.end));
    }
    Ok(FrameReading {
        number: DONE,
        place: 0,
        page_number: big_endian(&frame[page_number]),
        n,
        l,
        seed: big_endian(&frame[seed]),
        payload,
    })
}

/// Where the value of the field at `start` lies, or the first of 11, 12, 13, 11 that applies to it.
///
/// The place is the bad byte: for 12 the tag, for 13 the first length byte, and for 11 the frame's
/// end, where the next byte is missing.
fn field(frame: &[u8], start: usize, tag: u8, length: usize) -> Result<Range<usize>, Refusal> {
    let &[found, high, low, ref rest @ ..] = &frame[start..] else {
        return Err((SHORT, frame.len()));
    };
    if found != tag {
        return Err((TAG, start));
    }
    if usize::from(u16::from_be_bytes([high, low])) != length {
        return Err((FIELD_LENGTH, start + 1));
    }
    if rest.len() < length {
        return Err((SHORT, frame.len()));
    }
    let value = start + 3;
    Ok(value..value + length)
}

fn big_endian(bytes: &[u8]) -> u32 {
    bytes
        .iter()
        .fold(0, |number, &byte| number << 8 | u32::from(byte))
}

/// Writes the frame of a page and a seed into the first 22+L bytes of `room`.
///
/// Writing, making and laying give a number and a place.
pub fn write(
    page_number: u32,
    n: u8,
    l: u8,
    seed: u32,
    page: &[u8],
    room: &mut [u8],
) -> (u8, usize) {
    if !in_shape(n, l) {
        return (SHAPE, 0);
    }
    if page.len() != page::length(n, l) {
        return (PAGE_LENGTH, 0);
    }
    let Some(room) = room.get_mut(..22 + usize::from(l)) else {
        return (ROOM, 0);
    };
    let constraint = draw::constraint(n, seed).expect("n is in range");
    let payload = page::sum(constraint, usize::from(l), page);
    let fields: [(u8, &[u8]); 4] = [
        (1, &page_number.to_be_bytes()),
        (2, &[n, l]),
        (3, &seed.to_be_bytes()),
        (4, &payload),
    ];
    let mut frame = Vec::with_capacity(room.len());
    for (tag, value) in fields {
        frame.extend([tag, 0, value.len() as u8]);
        frame.extend(value);
    }
    room.copy_from_slice(&frame);
    (DONE, 0)
}

/// Makes the row of a page and a constraint, with a seed in front, in the first 12+L bytes of `room`.
pub fn make(n: u8, l: u8, seed: u32, constraint: u64, page: &[u8], room: &mut [u8]) -> (u8, usize) {
    if !in_shape(n, l) {
        return (SHAPE, 0);
    }
    if page.len() != page::length(n, l) {
        return (PAGE_LENGTH, 0);
    }
    if strays(n, constraint) {
        return (STRAY, 0);
    }
    let Some(room) = room.get_mut(..row_length(l)) else {
        return (ROOM, 0);
    };
    let payload = page::sum(constraint, usize::from(l), page);
    put_row(seed, constraint, &payload, room);
    (DONE, 0)
}

/// Lays the frame's row into the list at the arrival number.
///
/// Refusal 1 is about the expected n and L; the frame's own are refused as 14.
pub fn lay(
    frame: &[u8],
    page_number: u32,
    n: u8,
    l: u8,
    arrival: usize,
    list: &mut [u8],
) -> (u8, usize) {
    if !in_shape(n, l) {
        return (SHAPE, 0);
    }
    let reading = read(frame);
    if reading.number != DONE {
        return (reading.number, reading.place);
    }
    if (reading.page_number, reading.n, reading.l) != (page_number, n, l) {
        return (OTHER_PAGE, 0);
    }
    if arrival >= MOST_ROWS {
        return (LIST, 0);
    }
    let start = row_length(l) * arrival;
    let Some(room) = list.get_mut(start..start + row_length(l)) else {
        return (ROOM, 0);
    };
    let constraint = draw::constraint(n, reading.seed).expect("n is in range");
    put_row(reading.seed, constraint, &frame[reading.payload], room);
    (DONE, 0)
}

fn put_row(seed: u32, constraint: u64, payload: &[u8], room: &mut [u8]) {
    let row = [&seed.to_be_bytes()[..], &constraint.to_be_bytes(), payload];
    room.copy_from_slice(&row.concat());
}
