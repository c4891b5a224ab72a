//! Holds the comparison of whole scans with a model of them over the independent decoder.

use std::collections::HashSet;
use std::fmt;

use mekorvat::{LayRefusal, Next, Other, PageId, Scan};
use plain::both::{read_both, Second};
use plain::list::{row_length, MOST_ROWS};
use plain::number::*;
use plain::reading::disagreeing;
use plain::rng::Rng;

use crate::buffer::noise;
use crate::case::{agree, same, same_bytes, word, Case, Words};
use crate::confirmed::confirmed;
use crate::frames::spoil;
use crate::rounds::{assert_frequent, rounds};

const ROUNDS: usize = 3_000;

/// Document 01's rules for its program, whose lines are offers here; but a row that is there already
/// takes no place of its own.
#[derive(Default)]
struct Model {
    expected: Option<PageId>,
    /// Each row once.
    rows: Vec<Vec<u8>>,
    /// The row of every good frame, as far as these are no more than a list may have.
    all: Vec<Vec<u8>>,
    held: usize,
}

/// All that a reading of the model gives: number, rank, agreement, page, uses and roles.
type Outcome = (u8, usize, usize, Vec<u8>, Vec<u16>, Vec<u8>);

/// What the model gives of the other version; its rows are those that count.
struct OtherOutcome {
    number: u8,
    rows: usize,
    agreement: usize,
    disagreeing: usize,
    confirmed: bool,
    page: Vec<u8>,
}

impl Model {
    /// "The first good frame sets the expected page number, n and L"; gives the arrival number, or
    /// number and place.
    fn offer(&mut self, frame: &[u8]) -> Result<usize, (u8, usize)> {
        let read = plain::frame::read(frame);
        if read.number != DONE {
            return Err((read.number, read.place));
        }
        let PageId { page_number, n, l } = *self.expected.get_or_insert(PageId {
            page_number: read.page_number,
            n: read.n,
            l: read.l,
        });
        let arrival = self.rows.len();
        let start = arrival * row_length(l);
        let mut list = vec![0; start + row_length(l)];
        let laid = plain::frame::lay(frame, page_number, n, l, arrival, &mut list);
        if laid.0 != DONE {
            return Err(laid);
        }
        let row = list.split_off(start);
        self.all.push(row.clone());
        if let Some(earlier) = self.rows.iter().position(|earlier| *earlier == row) {
            self.held += 1;
            return Ok(earlier);
        }
        self.rows.push(row);
        Ok(arrival)
    }

    /// What the plain program reads: held frames too, unless they are too many for a list.
    fn list(&self) -> &[Vec<u8>] {
        if self.all.len() <= MOST_ROWS {
            &self.all
        } else {
            &self.rows
        }
    }

    /// None before the first good frame. The marks are those of the rows that count.
    fn read(&self) -> Option<Outcome> {
        let id = self.expected?;
        let list = self.list();
        let mut page = vec![0; id.page_bytes()];
        let (mut uses, mut roles) = (vec![0; list.len()], vec![0; list.len()]);
        let answer = plain::reading::read_list(
            id.n,
            id.l,
            &list.concat(),
            &mut page,
            &mut uses,
            &mut roles,
            &mut [0; 32_768],
        );
        if answer.number != DONE {
            page.clear();
        }
        let first = |row: &Vec<u8>| list.iter().position(|other| other == row).unwrap();
        let arrivals: Vec<usize> = self.rows.iter().map(first).collect();
        let uses = arrivals.iter().map(|&arrival| uses[arrival]).collect();
        let roles = arrivals.iter().map(|&arrival| roles[arrival]).collect();
        let (number, rank, agreement) = (answer.number, answer.rank, answer.agreement);
        Some((number, rank, agreement, page, uses, roles))
    }

    /// What the rows give that do not agree with the first page, where there is one.
    fn read_other(&self) -> Option<OtherOutcome> {
        let id = self.expected?;
        let list = self.list();
        let buffers = || {
            (
                vec![0; id.page_bytes()],
                vec![0; list.len()],
                vec![0; list.len()],
            )
        };
        let (mut page, mut uses, mut roles) = buffers();
        let (mut page2, mut uses2, mut roles2) = buffers();
        let mut list2 = list.concat();
        let second = Second {
            list: &mut list2,
            page: &mut page2,
            uses: &mut uses2,
            roles: &mut roles2,
        };
        let both = read_both(
            id.n,
            id.l,
            &list.concat(),
            &mut page,
            &mut uses,
            &mut roles,
            second,
            &mut [0; 32_768],
        );
        let number = both.second.number;
        let list2 = &list2[..both.rows * row_length(id.l)];
        let different: HashSet<&[u8]> = list2.chunks_exact(row_length(id.l)).collect();
        (both.first.number == DONE).then(|| OtherOutcome {
            number,
            rows: different.len(),
            agreement: both.second.agreement,
            disagreeing: disagreeing(id.l, list2, &page2),
            confirmed: confirmed(number, both.rows, &uses2, &roles2),
            page: page2,
        })
    }

    /// What an app is told where there is no page.
    fn next(&self, number: u8) -> Next {
        match number {
            _ if self.rows.len() == MOST_ROWS => Next::StartAnew,
            TIE => Next::ScanAgain,
            _ => Next::ScanMore,
        }
    }
}

fn outcome(scan: &mut Scan) -> Option<Outcome> {
    let page = scan.read().map_or(Vec::new(), |page| page.bytes.to_vec());
    let answer = scan.answer()?;
    let (number, rank, agreement) = (answer.number(), answer.rank(), answer.agreement());
    let uses = scan.marks().map(|mark| mark.uses()).collect();
    let roles = scan.marks().map(|mark| mark.role()).collect();
    Some((number, rank, agreement, page, uses, roles))
}

fn compare_reading(scan: &mut Scan, model: &Model) -> Result<u8, String> {
    let expected = model.read();
    let number = expected.as_ref().map_or(FEW, |outcome| outcome.0);
    same("the reading", outcome(scan), expected.clone())?;
    match (scan.read(), expected) {
        (Ok(page), Some((_, _, agreement, bytes, uses, roles))) => {
            same("the page's id", Some(page.id), model.expected)?;
            same("the rows read", page.rows, model.rows.len())?;
            let confirmed = confirmed(number, model.rows.len(), &uses, &roles);
            same("whether it is confirmed", page.confirmed, confirmed)?;
            let counts = (page.beyond() + usize::from(page.id.n), page.disagreeing());
            let against = disagreeing(page.id.l, &model.list().concat(), &bytes);
            same("its counts", counts, (agreement, against))?;
        }
        (Ok(_), None) => return Err("a page of no frame".to_string()),
        (Err(next), _) => same("what to do next", next, model.next(number))?,
    }
    compare_versions(scan, model)?;
    Ok(number)
}

fn compare_versions(scan: &mut Scan, model: &Model) -> Result<(), String> {
    let read = scan.read().map(|page| page.bytes.to_vec());
    let versions = scan.read_both();
    let first = versions.map(|versions| versions.page.bytes.to_vec());
    same("the first version", first, read)?;
    let (Ok(versions), Some(expected)) = (versions, model.read_other()) else {
        return same("whether there is another", versions.is_ok(), false);
    };
    match versions.other {
        Other::None => same("that no row disagrees", expected.rows, 0),
        Other::Page(other) => {
            same("the second number", DONE, expected.number)?;
            same("the second rows", other.rows, expected.rows)?;
            let counts = (other.agreement, other.disagreeing());
            let expected_counts = (expected.agreement, expected.disagreeing);
            same("the second counts", counts, expected_counts)?;
            same("the second confirmed", other.confirmed, expected.confirmed)?;
            same("the second page", other.bytes, &expected.page)
        }
        Other::Unsettled(next) => {
            let expected = model.next(expected.number);
            same("what to do for the other", next, expected)
        }
    }
}

/// A scan that goes on with the store of this one has its rows, and reads what it reads.
fn resumed(scan: &Scan, model: &Model) -> Result<Scan, String> {
    let Some(store) = scan.store() else {
        same("the page, where there is no store", None, model.expected)?;
        return Ok(scan.clone());
    };
    let mut resumed = Scan::resume(store).map_err(|refusal| refusal.to_string())?;
    same_bytes("the store again", resumed.store().unwrap_or(&[]), store)?;
    same(
        "the expected page again",
        resumed.expected(),
        model.expected,
    )?;
    same("the reading again", outcome(&mut resumed), model.read())?;
    Ok(resumed)
}

/// The frames offered to a scan.
pub struct ScanCase {
    frames: Vec<Vec<u8>>,
}

impl Case for ScanCase {
    type Answered = u8;

    fn compare(&self) -> Result<u8, String> {
        let mut scan = Scan::new();
        let mut model = Model::default();
        // Some sixteen readings between the offers, however many these are.
        let stride = 1 + self.frames.len() / 16;
        for (i, frame) in self.frames.iter().enumerate() {
            let refused = |refusal: LayRefusal| (refusal.number(), refusal.place());
            let offered = scan.offer(frame).map_err(refused);
            let what = "the arrival number, or number and place";
            same(what, offered, model.offer(frame))?;
            same("the expected page", scan.expected(), model.expected)?;
            let counts = (scan.rows(), scan.held());
            same("rows laid and held", counts, (model.rows.len(), model.held))?;
            if i % stride == 0 {
                compare_reading(&mut scan, &model)?;
                resumed(&scan, &model)?;
            }
        }
        compare_reading(&mut scan, &model)
    }

    fn of_words(words: &mut Words) -> Self {
        ScanCase {
            frames: words.all_bytes(),
        }
    }
}

impl fmt::Display for ScanCase {
    fn fmt(&self, f: &mut fmt::Formatter) -> fmt::Result {
        write!(f, "scan")?;
        for frame in &self.frames {
            write!(f, " {}", word(frame))?;
        }
        Ok(())
    }
}

/// Frames of one page or of two versions of it, some of them spoilt or of another page number, and
/// in most scans some of them held, or shown again later.
fn random_case(round: usize, rng: &mut Rng) -> ScanCase {
    let (n, l) = (1 + rng.below(8) as u8, 1 + rng.below(4) as u8);
    let page_number = rng.draw() as u32;
    let versions: Vec<_> = (0..1 + round % 2)
        .map(|_| noise(rng, plain::page::length(n, l)))
        .collect();
    let count = if round % 100 == 0 { 700 } else { rng.below(50) };
    let again = rng.below(4);
    let mut frames: Vec<Vec<u8>> = Vec::new();
    while frames.len() < count {
        if !frames.is_empty() && rng.below(4) < again {
            let back = [1, frames.len()][rng.below(2)];
            let shown = frames.len() - 1 - rng.below(back);
            frames.push(frames[shown].clone());
            continue;
        }
        let mut frame = vec![0; 22 + usize::from(l)];
        let page = &versions[rng.below(versions.len())];
        let page_number = page_number ^ u32::from(rng.below(20) == 0);
        plain::frame::write(page_number, n, l, rng.draw() as u32, page, &mut frame);
        if rng.below(8) == 0 {
            spoil(rng, &mut frame);
        }
        frames.push(frame);
    }
    ScanCase { frames }
}

#[test]
fn random_scans() {
    let seen = rounds("scans", ROUNDS, |round, rng| {
        agree(&random_case(round, rng))
    });
    assert_frequent(&seen, &[DONE, FEW, TIE, SINGULAR]);
}
