//! Holds the comparison of list readings at and past every edge of n, L, m and each lent buffer.

use plain::list::row_length;
use plain::rng::Rng;

use crate::buffer::noise;
use crate::case::agree;
use crate::lists::{Lengths, ListCase};

/// A list of m rows whose constraints name no symbol beyond the n there are.
fn list_of(rng: &mut Rng, n: u8, l: u8, m: usize) -> Vec<u8> {
    let mask = u64::MAX.checked_shr(64 - u32::from(n.min(64))).unwrap_or(0);
    let mut list = noise(rng, row_length(l) * m);
    for row in list.chunks_exact_mut(row_length(l)) {
        let constraint = rng.draw() & mask;
        row[4..12].copy_from_slice(&constraint.to_be_bytes());
    }
    list
}

/// Compares with the buffers exact, longer, and each of them a byte short.
fn compare_with_all_lengths(rng: &mut Rng, n: u8, l: u8, m: usize, list: &[u8]) {
    let exact = Lengths::exact(n, l, m);
    let mut all = vec![exact; 6];
    for (buffer, lengths) in all[..4].iter_mut().enumerate() {
        let length = &mut lengths.each_mut()[buffer];
        **length = length.saturating_sub(1);
    }
    for length in all[4].each_mut() {
        *length += 3;
    }
    for lengths in all {
        agree(&ListCase {
            n,
            l,
            list: list.to_vec(),
            lengths,
            noise: rng.draw(),
        });
    }
}

#[test]
fn every_edge() {
    let mut rng = Rng(1);
    for n in [0, 1, 2, 63, 64, 65, 128, 255] {
        for l in [0, 1, 31, 32, 33, 64, 255] {
            for m in [0, 1, 2, 511, 512, 513] {
                let mut list = list_of(&mut rng, n, l, m);
                compare_with_all_lengths(&mut rng, n, l, m, &list);
                list.push(0);
                compare_with_all_lengths(&mut rng, n, l, m, &list);
                list.truncate(list.len().saturating_sub(2));
                compare_with_all_lengths(&mut rng, n, l, m, &list);
            }
        }
    }
}

#[test]
fn every_list_length() {
    let mut rng = Rng(2);
    for length in 0..80 {
        let list = vec![0; length];
        compare_with_all_lengths(&mut rng, 2, 2, length / 14, &list);
    }
}

#[test]
fn every_stray_bit() {
    let mut rng = Rng(3);
    for n in 1..=64 {
        for bit in 0..64 {
            let mut list = list_of(&mut rng, n, 1, 4);
            list[17..25].copy_from_slice(&(1u64 << bit).to_be_bytes());
            list[43..51].copy_from_slice(&(1u64 << bit).to_be_bytes());
            compare_with_all_lengths(&mut rng, n, 1, 4, &list);
        }
    }
}
