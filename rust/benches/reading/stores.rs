//! Holds what is saved by keeping the working between frames: one offer, and asking, against a fresh
//! reading of the same rows; and whole scans, read after each frame.

use std::hint::black_box;
use std::time::{Duration, Instant};

use mekorvat::{lay, offer, open, stored, PageId, Scan, STORE_BYTES};
use plain::frame::write;
use plain::list::{row_length, split_seed};
use plain::page;
use plain::rng::Rng;

use crate::lists::{random_list, Kind, Shape, KINDS, LARGEST, SHAPES};
use crate::times::Times;
use crate::{Lent, LISTS, RUNS_EACH, SEED};

/// How often each list is scanned whole.
const SCANS_EACH: usize = 5;

pub fn print() {
    println!(
        "\nThe last row offered to a store that has all others, and the store asked: in microseconds, \
         on the same lists. Fresh is the\nproved reading of all rows, and behind a time stands its \
         multiple of that one. The store is copied before each run."
    );
    table(["fresh", "ask", "offer"], RUNS_EACH, Frames::offer_last);
    println!(
        "\nWhole scans, read after each frame: in microseconds a frame. Anew is each frame laid into \
         a list, and all rows so far read.\nScan is what a Scan does, its own test for held frames \
         included."
    );
    table(["anew", "scan"], SCANS_EACH, Frames::scan);
    let [resuming] = measure(LARGEST, Kind::Good, SCANS_EACH, Frames::resume);
    println!(
        "\nA scan goes on with a store of the largest list, all good rows, in {:.0} microseconds by \
         the median.",
        resuming.median
    );
}

/// A line for each shape and kind. Behind a time stands its multiple of the first.
fn table<const COLUMNS: usize>(
    names: [&str; COLUMNS],
    runs: usize,
    run: fn(&mut Frames) -> [Duration; COLUMNS],
) {
    let names = line(names.map(str::to_string));
    let width = names.len();
    println!("\n{:<20}{:^width$}  {:^width$}", "", "medians", "minima");
    println!("{:<20}{names}  {names}", "");
    for shape in SHAPES {
        println!("n {}, L {}", shape.0, shape.1);
        for kind in KINDS {
            let times = measure(shape, kind, runs, run);
            let medians = compared(times.each_ref().map(|times| times.median));
            let minima = compared(times.each_ref().map(|times| times.minimum));
            println!("{:<20}{medians}  {minima}", kind.name());
        }
    }
}

fn compared<const COLUMNS: usize>(times: [f64; COLUMNS]) -> String {
    let first = times[0];
    let mut columns = times.map(|time| format!("{time:.2} ({:.3})", time / first));
    columns[0] = format!("{first:.2}");
    line(columns)
}

fn line<const COLUMNS: usize>(columns: [String; COLUMNS]) -> String {
    columns.map(|column| format!("{column:>15}")).concat()
}

fn measure<const COLUMNS: usize>(
    shape: Shape,
    kind: Kind,
    runs: usize,
    run: fn(&mut Frames) -> [Duration; COLUMNS],
) -> [Times; COLUMNS] {
    let mut rng = Rng(SEED);
    let mut times = [(); COLUMNS].map(|()| Vec::new());
    for _ in 0..LISTS {
        let mut frames = Frames::of(shape, random_list(&mut rng, shape, kind));
        for _ in 0..runs {
            for (times, time) in times.iter_mut().zip(run(&mut frames)) {
                times.push(time);
            }
        }
    }
    times.map(Times::of)
}

fn timed<T>(what: impl FnOnce() -> T) -> (Duration, T) {
    let start = Instant::now();
    let given = what();
    (start.elapsed(), given)
}

/// A list, the frames of its rows, and what is lent.
struct Frames {
    id: PageId,
    list: Vec<u8>,
    frames: Vec<Vec<u8>>,
    /// Offered all frames but the last.
    store: Vec<u8>,
    offered: Vec<u8>,
    by_asking: Lent<[u8; 2]>,
    by_reading: Lent<[u8; 2]>,
}

impl Frames {
    fn of(shape: Shape, list: Vec<u8>) -> Self {
        let (n, l) = shape;
        let page_number = 212;
        let id = PageId { page_number, n, l };
        let rows = list.chunks_exact(row_length(l));
        let frames: Vec<Vec<u8>> = rows.map(|row| frame_of(id, row)).collect();
        let mut store = vec![0; STORE_BYTES];
        open(&mut store, id).unwrap();
        for frame in &frames[..frames.len() - 1] {
            offer(&mut store, frame).unwrap();
        }
        Frames {
            id,
            list,
            frames,
            offered: store.clone(),
            store,
            by_asking: Lent::new(shape),
            by_reading: Lent::new(shape),
        }
    }

    fn offer_last(&mut self) -> [Duration; 3] {
        let shape = (self.id.n, self.id.l);
        let last = &self.frames[self.frames.len() - 1];
        let store = &mut self.offered;
        store.copy_from_slice(&self.store);
        let (offering, offered) = timed(|| offer(store, black_box(last)));
        let (asking, asked) = timed(|| self.by_asking.ask(black_box(store)));
        let (fresh, read) = timed(|| self.by_reading.read(shape, black_box(&self.list)));

        assert_eq!(offered, Ok(()));
        assert_eq!(asked, read, "asking and reading differ");
        assert!(
            self.by_asking.same_as(&self.by_reading),
            "their bytes differ"
        );
        assert!(stored(store).unwrap().list == self.list);
        [fresh, asking, offering]
    }

    /// All frames in two ways, the time of each divided by their number.
    fn scan(&mut self) -> [Duration; 2] {
        let shape = (self.id.n, self.id.l);
        let mut list = vec![0; self.list.len()];
        let (anew, ()) = timed(|| {
            for (arrival, frame) in self.frames.iter().enumerate() {
                lay(frame, self.id, arrival, &mut list).unwrap();
                let rows = &list[..(arrival + 1) * self.id.row_bytes()];
                black_box(self.by_reading.read(shape, rows));
            }
        });
        let mut scan = Scan::new();
        let (scanning, ()) = timed(|| {
            for frame in &self.frames {
                scan.offer(frame).unwrap();
                let _ = black_box(scan.read());
            }
        });
        [anew, scanning].map(|time| time / self.frames.len() as u32)
    }

    fn resume(&mut self) -> [Duration; 1] {
        let (resuming, resumed) = timed(|| Scan::resume(&self.store));
        assert!(resumed.unwrap().store() == Some(&self.store));
        [resuming]
    }
}

/// The frame that gives a row, whose constraint its seed names.
fn frame_of(PageId { page_number, n, l }: PageId, row: &[u8]) -> Vec<u8> {
    let (seed, _) = split_seed(row);
    let mut frame = vec![0; 22 + usize::from(l)];
    write(
        page_number,
        n,
        l,
        seed,
        &vec![0; page::length(n, l)],
        &mut frame,
    );
    frame[22..].copy_from_slice(&row[12..]);
    frame
}
