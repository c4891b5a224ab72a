//! Holds the program that prints rows made from the pages of the base frames, both done and refused.

use plain::frame::make;
use plain::list::row_length;
use plain::table::{base_frames, hex, page_bytes, Base};

/// Some bits of a constraint, the highest and the lowest among them.
const MIXED: u64 = 0x9e37_79b9_7f4a_7c15;

fn main() {
    for (k, Base { n, l, seed, .. }) in base_frames().into_iter().enumerate() {
        let all = u64::MAX >> (64 - n);
        // The lowest bit outside; with 64 symbols there is none, and nothing is named.
        let stray = all.wrapping_add(1);
        let row = row_length(l);
        let end = usize::from(n) * usize::from(l);
        let bytes = page_bytes(k, end + 1);
        let page = &bytes[..end];

        for constraint in [0, 1, 1 << (n - 1), all, MIXED & all, stray, u64::MAX] {
            print_making(n, l, seed, constraint, page, row + 3);
        }
        for room in [row, row - 1, 0] {
            print_making(n, l, seed, all, page, room);
        }
        for (n, l) in [(0, l), (65, l), (n, 0), (n, 33)] {
            print_making(n, l, seed, all, page, row);
        }
        for length in [end - 1, end + 1, 0] {
            print_making(n, l, seed, all, &bytes[..length], 44);
        }

        // Two refusals at a time.
        print_making(0, l, seed, stray, &bytes, row);
        print_making(n, l, seed, stray, &bytes, row);
        print_making(n, l, seed, stray, page, row - 1);
    }
}

/// Makes a row in a fresh room of bytes 170; one line has the number and the whole room afterwards.
fn print_making(n: u8, l: u8, seed: u32, constraint: u64, page: &[u8], length: usize) {
    let mut room = vec![170; length];
    let (number, place) = make(n, l, seed, constraint, page, &mut room);
    assert_eq!(place, 0);
    println!("{number} {}", hex(&room));
}
