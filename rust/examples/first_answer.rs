//! Measures how often a page is wrong for four keepers who read after each frame. One takes the
//! first page that comes. One waits until five rows agree beyond n, one until the page is
//! confirmed, and one until it is confirmed and two rows agree beyond n for each that disagrees.
//!
//! `cargo run --release --example first_answer` prints the table of docs/CONFIRMED.md.

use std::thread;

use mekorvat::{Page, Scan, MOST_ROWS};
use plain::rng::Rng;

const SCANS: usize = 10_000;
const SEED: u64 = 1;
const L: u8 = 16;
const SYMBOLS: [u8; 2] = [16, 64];
/// How many frames in a hundred are misread.
const MISREAD: [usize; 4] = [1, 2, 5, 10];

/// How a frame is misread.
#[derive(Clone, Copy)]
enum Fault {
    /// The whole payload is noise.
    Noise,
    /// One bit of the seed or the payload is another.
    Bit,
}

const FAULTS: [(Fault, &str); 2] = [(Fault::Noise, "noise"), (Fault::Bit, "one bit")];

/// When each keeper takes the page.
const KEEPERS: [fn(&Page) -> bool; 4] = [
    |_| true,
    |page| page.beyond() >= 5,
    |page| page.confirmed,
    |page| page.confirmed && page.beyond() >= 2 * page.disagreeing(),
];

/// What a keeper took from a scan: after how many frames, and whether it is right. None where the
/// list was full before.
type Taken = Option<(usize, bool)>;

/// What each of them took.
type Takings = [Taken; KEEPERS.len()];

fn main() {
    println!("{SCANS} scans a line from seed {SEED}, L {L}; wrong pages in 100 scans, frames more on the average\n");
    println!("| n | misread | in 100 | first: wrong | after frames | 5 beyond n: wrong | more | confirmed: wrong | more | and 2 for each against: wrong | more |");
    println!("|---|---|---|---|---|---|---|---|---|---|---|");
    for n in SYMBOLS {
        for (fault, name) in FAULTS {
            for in_100 in MISREAD {
                let all = scans(n, fault, in_100);
                print!("| {n} | {name} | {in_100} |");
                for keeper in 0..KEEPERS.len() {
                    print!(" {} | {:.1} |", wrong(&all, keeper), frames(&all, keeper));
                }
                println!();
            }
        }
    }
}

/// All scans of a line, on all cores.
fn scans(n: u8, fault: Fault, in_100: usize) -> Vec<Takings> {
    let cores = thread::available_parallelism().map_or(1, usize::from);
    let share = |core: usize| -> Vec<Takings> {
        let numbers = (core..SCANS).step_by(cores);
        let rng = |number: usize| Rng(Rng(SEED ^ (number as u64) << 32).draw());
        numbers
            .map(|number| scan(&mut rng(number), n, fault, in_100))
            .collect()
    };
    thread::scope(|scope| {
        let shares: Vec<_> = (0..cores)
            .map(|core| scope.spawn(move || share(core)))
            .collect();
        let shares = shares.into_iter();
        shares.flat_map(|share| share.join().unwrap()).collect()
    })
}

/// How many in a hundred scans gave the keeper a wrong page, and how many gave none.
fn wrong(scans: &[Takings], keeper: usize) -> String {
    let in_100 = |count: usize| 100.0 * count as f64 / scans.len() as f64;
    let pages = scans.iter().filter_map(|takings| takings[keeper]);
    let wrong = pages.clone().filter(|(_, right)| !right).count();
    match scans.len() - pages.count() {
        0 => format!("{:.2}", in_100(wrong)),
        none => format!("{:.2} (none: {:.2})", in_100(wrong), in_100(none)),
    }
}

/// After how many frames the first keeper took a page, or how many more another one waited.
fn frames(scans: &[Takings], keeper: usize) -> f64 {
    let taken = scans.iter().filter_map(|takings| {
        let (first, _) = takings[0]?;
        let (frames, _) = takings[keeper]?;
        Some(if keeper == 0 { first } else { frames - first })
    });
    let (count, sum) = taken.fold((0, 0), |(count, sum), frames| (count + 1, sum + frames));
    sum as f64 / f64::from(count)
}

/// Offers frames of a random page until each keeper has one, or the list is full.
fn scan(rng: &mut Rng, n: u8, fault: Fault, in_100: usize) -> Takings {
    let written = rng.bytes(plain::page::length(n, L));
    let mut scan = Scan::new();
    let mut takings = [None; KEEPERS.len()];
    let mut frame = [0; 22 + L as usize];
    while scan.rows() < MOST_ROWS && takings.contains(&None) {
        plain::frame::write(212, n, L, rng.draw() as u32, &written, &mut frame);
        if rng.below(100) < in_100 {
            misread(rng, fault, &mut frame);
        }
        let offered = scan.offer(&frame);
        offered.expect("at most its seed and its payload are misread");
        // Fewer rows than symbols never give a page.
        if scan.rows() < usize::from(n) {
            continue;
        }
        let Ok(page) = scan.read() else {
            continue;
        };
        for (taken, takes) in takings.iter_mut().zip(KEEPERS) {
            if taken.is_none() && takes(&page) {
                *taken = Some((page.rows, page.bytes == written));
            }
        }
    }
    takings
}

fn misread(rng: &mut Rng, fault: Fault, frame: &mut [u8]) {
    // The payload stands behind its tag and length, and these behind the seed.
    let (seed, payload) = (15, 22);
    match fault {
        Fault::Noise => frame[payload..].copy_from_slice(&rng.bytes(usize::from(L))),
        Fault::Bit => {
            let bit = rng.below(8 * (4 + usize::from(L)));
            let byte = if bit < 32 { seed } else { payload - 4 } + bit / 8;
            frame[byte] ^= 1 << (bit % 8);
        }
    }
}
