//! Holds the program that prints layings of base frames, both done and refused.

use plain::frame::lay;
use plain::list::row_length;
use plain::table::{base_frames, hex, Base};

fn main() {
    for Base {
        page_number,
        n,
        l,
        frame,
        ..
    } in base_frames()
    {
        let row = row_length(l);
        let length = 3 * row + 5;
        for arrival in [0, 1, 2, 3, 511, 512] {
            print_laying(&frame, page_number, n, l, arrival, length);
        }

        let other_n = if n == 64 { 63 } else { n + 1 };
        let other_l = if l == 32 { 31 } else { l + 1 };
        print_laying(&frame, page_number.wrapping_add(1), n, l, 1, length);
        print_laying(&frame, page_number, other_n, l, 1, length);
        print_laying(&frame, page_number, n, other_l, 1, length);
        print_laying(&frame, page_number, 0, l, 1, length);
        print_laying(&frame, page_number, n, 33, 1, length);

        print_laying(&frame[..frame.len() - 1], page_number, n, l, 1, length);
        print_laying(&[&frame[..], &[0]].concat(), page_number, n, l, 1, length);

        print_laying(&frame, page_number, n, l, 1, 2 * row - 1);
        print_laying(&frame, page_number, n, l, 1, 2 * row);
    }
}

/// Lays into a fresh list of bytes 170; one line has number, place and the whole list afterwards.
fn print_laying(frame: &[u8], page_number: u32, n: u8, l: u8, arrival: usize, length: usize) {
    let mut list = vec![170; length];
    let (number, place) = lay(frame, page_number, n, l, arrival, &mut list);
    println!("{number} {place} {}", hex(&list));
}
