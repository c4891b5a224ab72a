//! Holds the program that prints draws: on each line a seed and its constraints for n = 1 to 64.

use plain::draw::constraint;

fn main() {
    let scattered = (3..=102u32).map(|i| i.wrapping_mul(2_654_435_761));
    for seed in [0, 1, 2, u32::MAX].into_iter().chain(scattered) {
        print!("{seed:08x}");
        for n in 1..=64 {
            print!(" {:016x}", constraint(n, seed).expect("n is in range"));
        }
        println!();
    }
}
