//! Holds the program that prints readings of base frames, whole, altered, cut and extended.

use plain::frame::read;
use plain::table::{base_frames, hex};

fn main() {
    for base in base_frames() {
        let frame = base.frame;
        print_reading(&frame);
        for position in 0..frame.len() {
            for flip in [1, 128] {
                let mut altered = frame.clone();
                altered[position] ^= flip;
                print_reading(&altered);
            }
        }
        for cut in 0..frame.len() {
            print_reading(&frame[..cut]);
        }
        for extra in 1..=3 {
            print_reading(&[&frame[..], &vec![0; extra]].concat());
        }
    }
}

/// One line: number, place, page number, n, L, seed, the payload's offset and the payload.
fn print_reading(frame: &[u8]) {
    let r = read(frame);
    let offset = r.payload.start;
    let payload = match &frame[r.payload] {
        [] => "-".to_string(),
        bytes => hex(bytes),
    };
    println!(
        "{} {} {} {} {} {} {offset} {payload}",
        r.number, r.place, r.page_number, r.n, r.l, r.seed
    );
}
