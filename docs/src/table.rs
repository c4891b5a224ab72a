//! Holds the four base frames that the printed tables of frame readings, layings and rows made start from.

use crate::frame;
use crate::number::DONE;
use crate::page;

/// A written frame and what it was written from.
pub struct Base {
    pub page_number: u32,
    pub n: u8,
    pub l: u8,
    pub seed: u32,
    pub frame: Vec<u8>,
}

/// The first bytes of page k: byte i is 37i + 11k modulo 256.
pub fn page_bytes(k: usize, length: usize) -> Vec<u8> {
    (0..length).map(|i| (37 * i + 11 * k) as u8).collect()
}

/// The smallest and the largest frame among them; base k is written from page k.
pub fn base_frames() -> Vec<Base> {
    let fields = [
        (5, 1, 1, 0),
        (212, 2, 3, 1),
        (u32::MAX, 64, 32, u32::MAX),
        (16_909_060, 7, 12, 305_419_896),
    ];
    let write = |(k, (page_number, n, l, seed))| {
        let page = page_bytes(k, page::length(n, l));
        let mut frame = vec![0; 22 + usize::from(l)];
        assert_eq!(
            frame::write(page_number, n, l, seed, &page, &mut frame),
            (DONE, 0)
        );
        Base {
            page_number,
            n,
            l,
            seed,
            frame,
        }
    };
    fields.into_iter().enumerate().map(write).collect()
}

pub fn hex(bytes: &[u8]) -> String {
    bytes.iter().map(|byte| format!("{byte:02x}")).collect()
}
