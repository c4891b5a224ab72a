//! Holds the running of many rounds on all cores, each from a seed of its own.

use std::env;
use std::io::{stderr, Write};
use std::thread;
use std::time::Instant;

use plain::rng::Rng;

/// How often each of document 01's numbers, up to 16, was answered.
pub type Seen = [usize; 17];

/// Runs all rounds and counts the numbers they give.
pub fn rounds(what: &str, count: usize, round: impl Fn(usize, &mut Rng) -> u8 + Sync) -> Seen {
    let [seen] = tallies([what], count, |number, rng| {
        let mut seen = Seen::default();
        seen[usize::from(round(number, rng))] += 1;
        [seen]
    });
    seen
}

/// Runs all rounds and adds up how often they met each number, by kinds of calls.
///
/// What a round draws depends on the seed and its own number only, not on the cores.
pub fn tallies<const KINDS: usize>(
    kinds: [&str; KINDS],
    count: usize,
    round: impl Fn(usize, &mut Rng) -> [Seen; KINDS] + Sync,
) -> [Seen; KINDS] {
    let seed = seed();
    let cores = thread::available_parallelism().map_or(1, usize::from);
    let start = Instant::now();
    let share = |core: usize| {
        let mut total = [Seen::default(); KINDS];
        for number in (core..count).step_by(cores) {
            let mut rng = Rng(Rng(seed ^ (number as u64) << 32).draw());
            add(&mut total, round(number, &mut rng));
        }
        total
    };
    let mut total = [Seen::default(); KINDS];
    thread::scope(|scope| {
        let shares: Vec<_> = (0..cores)
            .map(|core| scope.spawn(move || share(core)))
            .collect();
        for share in shares {
            let seen = share.join();
            let failed = |_| panic!("{}: a round of seed {seed} failed", kinds.join(", "));
            add(&mut total, seen.unwrap_or_else(failed));
        }
    });
    // Past the test harness, which shows what passing tests print only when it is asked to.
    let time = start.elapsed().as_secs_f64();
    for (what, seen) in kinds.iter().zip(&total) {
        let count: usize = seen.iter().sum();
        let _ = writeln!(
            stderr(),
            "{what}: {count} of seed {seed} in {time:.1} s, by number {seen:?}"
        );
    }
    total
}

fn add<const KINDS: usize>(total: &mut [Seen; KINDS], seen: [Seen; KINDS]) {
    for (total, seen) in total.as_flattened_mut().iter_mut().zip(seen.as_flattened()) {
        *total += seen;
    }
}

/// The same at each run, so that a pass stays a pass, unless MEKORVAT_SEED says otherwise.
fn seed() -> u64 {
    match env::var("MEKORVAT_SEED") {
        Ok(seed) => seed.parse().expect("MEKORVAT_SEED is a number"),
        Err(_) => 1,
    }
}

/// Wants each of these numbers to have come up often, so that the rounds say something of it.
pub fn assert_frequent(seen: &Seen, numbers: &[u8]) {
    let total: usize = seen.iter().sum();
    for &number in numbers {
        let times = seen[usize::from(number)];
        assert!(times > total / 500, "{number} came up {times} times");
    }
}
