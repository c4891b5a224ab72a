//! Measures list reading, at its largest and smaller: the proved reader against the straightforward
//! one of docs/src, without and with a table of heads, on the same lists and in one run; then a
//! store that keeps the working, against the proved reader. `cargo bench` runs it.

mod lists;
mod stores;
mod times;

use std::env;
use std::hint::black_box;
use std::time::Instant;

use plain::list::Answer;
use plain::rng::Rng;
use plain::{page, straight};

use lists::{random_list, Kind, Shape, HELD, KINDS, LARGEST, ROWS, SHAPES, TIMES};
use times::{model_name, Times};

const LISTS: usize = 5;
const RUNS_EACH: usize = 201;
/// All lists of a line come from it.
const SEED: u64 = 1;

fn main() {
    // `cargo test --benches` starts it too, but without this word.
    if !env::args().any(|argument| argument == "--bench") {
        return;
    }
    println!(
        "Reading {ROWS} rows, or {HELD} frames {TIMES} times: medians and minima in microseconds of {LISTS} lists from seed {SEED}, \
         each read {RUNS_EACH} times\nby each reader in turn. In all times: the checks, the \
         reading, the marks, and 32,768 bytes of\nscratch cleared. In none: making the lists and \
         buffers; buffers are lent as the last reading left them.\nBehind a plain time stands the \
         proved one as a multiple of it; heads is the plain reader with a table of heads."
    );
    if let Some(name) = model_name() {
        println!("Processor: {name}");
    }
    println!("\n{:<20}{:^37}  {:^37}", "", "medians", "minima");
    let columns = format!("{:>7} {:>14} {:>14}", "proved", "plain", "heads");
    println!("{:<20}{columns}  {columns}  answers", "");

    let mut largest = None;
    for shape in SHAPES {
        println!("n {}, L {}", shape.0, shape.1);
        for kind in KINDS {
            let line = Line::measure(shape, kind);
            line.print(kind);
            if (shape, kind) == (LARGEST, Kind::OneInTenWrong) {
                largest = Some(line.proved.median);
            }
        }
    }
    let a_second = 1e6 / largest.expect("it is among the lines");
    println!(
        "\nThe proved reader reads the largest list, one row in ten wrong, {a_second:.0} times a \
         second by the median."
    );
    stores::print();
}

/// What was measured of all lists of one shape and kind.
struct Line {
    proved: Times,
    plain: Times,
    heads: Times,
    /// The answer number of each list.
    answers: Vec<u8>,
}

impl Line {
    fn measure(shape: Shape, kind: Kind) -> Self {
        let mut rng = Rng(SEED);
        let mut answers = Vec::new();
        let (mut proved, mut plain, mut heads) = (Vec::new(), Vec::new(), Vec::new());
        for _ in 0..LISTS {
            let list = random_list(&mut rng, shape, kind);
            let mut by_proved = Lent::<[u8; 2]>::new(shape);
            let mut by_plain = Lent::<u16>::new(shape);
            let mut answer = Answer::default();
            for _ in 0..RUNS_EACH {
                let start = Instant::now();
                answer = by_proved.read(shape, black_box(&list));
                proved.push(start.elapsed());

                for (reader, times) in [
                    (straight::read_list as Straight, &mut plain),
                    (straight::read_list_by_heads, &mut heads),
                ] {
                    let start = Instant::now();
                    let expected = by_plain.read(reader, shape, black_box(&list));
                    times.push(start.elapsed());

                    assert_eq!(answer, expected, "the readers differ");
                    by_proved.assert_same(&by_plain);
                }
            }
            answers.push(answer.number);
        }
        Line {
            proved: Times::of(proved),
            plain: Times::of(plain),
            heads: Times::of(heads),
            answers,
        }
    }

    fn print(&self, kind: Kind) {
        let name = kind.name();
        let columns = |of: fn(&Times) -> f64| {
            let (proved, plain, heads) = (of(&self.proved), of(&self.plain), of(&self.heads));
            let (by_plain, by_heads) = (proved / plain, proved / heads);
            format!("{proved:>7.1} {plain:>7.1} ({by_plain:.2}) {heads:>7.1} ({by_heads:.2})")
        };
        let (medians, minima) = (
            columns(|times| times.median),
            columns(|times| times.minimum),
        );
        println!("{name:<20}{medians}  {minima}  {:?}", self.answers);
    }
}

/// One of the straightforward readers.
type Straight = fn(u8, u8, &[u8], &mut [u8], &mut [u16], &mut [u8], &mut [u8]) -> Answer;

/// The buffers lent to one of the readers, each with uses of its own: pairs of bytes, or numbers.
struct Lent<Use> {
    page: Vec<u8>,
    uses: Vec<Use>,
    roles: Vec<u8>,
    scratch: Vec<u8>,
}

impl<Use: Clone + Default> Lent<Use> {
    fn new((n, l): Shape) -> Self {
        Lent {
            page: vec![0; page::length(n, l)],
            uses: vec![Use::default(); ROWS],
            roles: vec![0; ROWS],
            scratch: vec![0; mekorvat::SCRATCH_BYTES],
        }
    }
}

fn numbers(answer: mekorvat::Answer) -> Answer {
    Answer {
        number: answer.number(),
        rank: answer.rank(),
        place: answer.place(),
        agreement: answer.agreement(),
    }
}

impl Lent<[u8; 2]> {
    /// By the proved reader.
    fn read(&mut self, (n, l): Shape, list: &[u8]) -> Answer {
        let pairs = self.uses.as_flattened_mut();
        let (page, roles, scratch) = (&mut self.page, &mut self.roles, &mut self.scratch);
        numbers(mekorvat::read_list(n, l, list, page, pairs, roles, scratch))
    }

    /// By a store that keeps the working.
    fn ask(&mut self, store: &[u8]) -> Answer {
        let pairs = self.uses.as_flattened_mut();
        let (page, roles, scratch) = (&mut self.page, &mut self.roles, &mut self.scratch);
        let asked = mekorvat::ask(store, page, pairs, roles, scratch);
        numbers(asked.expect("a store, and room").answer)
    }

    fn same_as(&self, other: &Self) -> bool {
        self.page == other.page && self.uses == other.uses && self.roles == other.roles
    }

    fn assert_same(&self, plain: &Lent<u16>) {
        assert_eq!(self.page, plain.page, "the pages differ");
        let uses: Vec<u16> = mekorvat::uses(self.uses.as_flattened()).collect();
        assert_eq!(uses, plain.uses, "the uses differ");
        assert_eq!(self.roles, plain.roles, "the roles differ");
    }
}

impl Lent<u16> {
    fn read(&mut self, reader: Straight, (n, l): Shape, list: &[u8]) -> Answer {
        let (page, roles, scratch) = (&mut self.page, &mut self.roles, &mut self.scratch);
        reader(n, l, list, page, &mut self.uses, roles, scratch)
    }
}
