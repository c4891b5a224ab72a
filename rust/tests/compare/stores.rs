//! Holds sequences of calls on one store by both programs: after each call every lent byte is
//! compared, and of the store all that is told of its bytes.

use std::fmt;

use mekorvat::{Answer, PageId, STORE_BYTES};
use plain::number::DONE;
use plain::rng::Rng;
use plain::store::{Header, Store};

use crate::buffer::{Buffer, MARGIN};
use crate::case::{same, same_bytes, word, Case, Words};
use crate::lists::{Lengths, Lent};
use crate::rounds::Seen;

/// Where the list stands in a store, and where the working does.
pub const LIST_START: usize = 16;
const WORKING_START: usize = 32_768;

/// One call, or what is written over the header between two.
pub enum Step {
    Open(PageId),
    Offer(Vec<u8>),
    /// The lengths of the lent buffers, and the seed of the noise in them.
    Ask(Lengths, u64),
    Write([u8; 8]),
}

/// All that a sequence is given.
pub struct StoreCase {
    /// How many bytes the store's buffer has.
    pub length: usize,
    /// The seed of the noise that it is filled with.
    pub noise: u64,
    /// Each with the number of bytes that are lent for the store.
    pub steps: Vec<(usize, Step)>,
}

/// The header that these bytes are.
pub fn header_of(bytes: [u8; 8]) -> Header {
    let [a, b, c, d, n, l, high, low] = bytes;
    Header {
        page_number: u32::from_be_bytes([a, b, c, d]),
        n,
        l,
        rows: u16::from_be_bytes([high, low]),
    }
}

/// The bytes of a header.
pub fn bytes_of(header: Header) -> [u8; 8] {
    let [a, b, c, d] = header.page_number.to_be_bytes();
    let [high, low] = header.rows.to_be_bytes();
    [a, b, c, d, header.n, header.l, high, low]
}

/// One store in three hands.
struct Stores {
    plain: Store,
    by_boundary: Buffer,
    by_types: Buffer,
}

impl Stores {
    fn open(&mut self, lent: usize, id: PageId) -> Result<u8, String> {
        let mut expected = self.by_boundary.clone();
        let PageId { page_number, n, l } = id;
        let number = self.plain.open(page_number, n, l);
        if number == DONE {
            expected.lent()[..STORE_BYTES].fill(0);
            expected.lent()[..8].copy_from_slice(&bytes_of(self.plain.header));
        }

        let store = &mut self.by_boundary.lent()[..lent];
        let by_boundary = mekorvat::boundary::open(store, page_number, n, l);
        let by_types = mekorvat::open(&mut self.by_types.lent()[..lent], id);
        let by_types = by_types.map_or_else(|refusal| refusal.number(), |()| 0);
        same("opening", (by_boundary, by_types), (number, number))?;
        self.by_boundary.same_as("the opened store", &expected)?;
        Ok(number)
    }

    fn offer(&mut self, lent: usize, frame: &[u8]) -> Result<u8, String> {
        let mut expected = self.by_boundary.clone();
        let offered = self.plain.offer(frame);

        let mut place = usize::MAX;
        let store = &mut self.by_boundary.lent()[..lent];
        let number = mekorvat::boundary::offer(store, frame, &mut place);
        let by_types = mekorvat::offer(&mut self.by_types.lent()[..lent], frame);
        let by_types =
            by_types.map_or_else(|refused| (refused.number(), refused.place()), |()| (0, 0));
        let what = "number and place of an offer";
        same(what, ((number, place), by_types), (offered, offered))?;

        if number == DONE {
            // All but the working, of which no more is told than what asking gives.
            let (store, found) = (expected.lent(), self.by_boundary.lent());
            let list = self.plain.list();
            store[..8].copy_from_slice(&bytes_of(self.plain.header));
            store[8..LIST_START].copy_from_slice(&found[8..LIST_START]);
            store[LIST_START..LIST_START + list.len()].copy_from_slice(&list);
            store[WORKING_START..STORE_BYTES].copy_from_slice(&found[WORKING_START..STORE_BYTES]);
        }
        self.by_boundary
            .same_as("the store after an offer", &expected)?;
        Ok(number)
    }

    fn ask(&mut self, lent: usize, lengths: Lengths, noise: u64) -> Result<u8, String> {
        let before = self.by_boundary.clone();
        let mut by_plain = Lent::within(MARGIN, lengths, noise);
        let mut by_boundary = by_plain.clone();
        let mut by_types = by_plain.clone();
        let expected = by_plain.ask_plain(&self.plain);

        let found = by_boundary.ask_boundary(&self.by_boundary.lent()[..lent]);
        same("the numbers of asking", found, expected)?;
        by_boundary.same_as(&by_plain)?;

        let found = by_types.ask_types(&self.by_types.lent()[..lent]);
        same("the answer in types", found, expected)?;
        by_types.same_as(&by_plain)?;
        self.by_boundary
            .same_as("the store after asking", &before)?;
        Ok(expected[0] as u8)
    }

    /// What the crate reads off the bytes.
    fn compare_told(&mut self, lent: usize) -> Result<(), String> {
        let Header {
            page_number, n, l, ..
        } = self.plain.header;
        match (
            mekorvat::stored(&self.by_types.lent()[..lent]),
            self.plain.refusal(),
        ) {
            (Ok(told), None) => {
                same("the page told", told.id, PageId { page_number, n, l })?;
                same(
                    "the rows told",
                    told.rows(),
                    usize::from(self.plain.header.rows),
                )?;
                same_bytes("the list told", told.list, &self.plain.list())
            }
            (Ok(_), Some(number)) => Err(format!("told of what is refused by {number}")),
            (Err(refusal), expected) => same("the store", Some(refusal.number()), expected),
        }
    }
}

/// Number, rank, place, agreement and rows.
pub type Numbers = [usize; 5];

impl Lent {
    fn ask_plain(&mut self, store: &Store) -> Numbers {
        let pairs = self.uses.lent();
        let mut uses: Vec<u16> = mekorvat::uses(pairs).collect();
        let (page, roles, scratch) = (self.page.lent(), self.roles.lent(), self.scratch.lent());
        let (answer, rows) = store.ask(page, &mut uses, roles, scratch);
        for (pair, uses) in pairs.chunks_exact_mut(2).zip(uses) {
            pair.copy_from_slice(&uses.to_be_bytes());
        }
        let number = usize::from(answer.number);
        [number, answer.rank, answer.place, answer.agreement, rows]
    }

    pub fn ask_boundary(&mut self, store: &[u8]) -> Numbers {
        // No answer has these numbers, so one that is not set shows.
        let [mut rank, mut place, mut agreement, mut rows] = [usize::MAX; 4];
        let number = mekorvat::boundary::ask(
            store,
            self.page.lent(),
            self.uses.lent(),
            self.roles.lent(),
            self.scratch.lent(),
            &mut rank,
            &mut place,
            &mut agreement,
            &mut rows,
        );
        [usize::from(number), rank, place, agreement, rows]
    }

    fn ask_types(&mut self, store: &[u8]) -> Numbers {
        let (page, uses, roles) = (self.page.lent(), self.uses.lent(), self.roles.lent());
        match mekorvat::ask(store, page, uses, roles, self.scratch.lent()) {
            Ok(mekorvat::Asked { answer, rows }) => {
                assert!(!matches!(
                    answer,
                    Answer::Shape | Answer::List | Answer::Stray { .. }
                ));
                let number = usize::from(answer.number());
                [
                    number,
                    answer.rank(),
                    answer.place(),
                    answer.agreement(),
                    rows,
                ]
            }
            Err(refusal) => [usize::from(refusal.number()), 0, 0, 0, refusal.rows()],
        }
    }
}

impl Case for StoreCase {
    /// How often each number came of openings, offers and asking.
    type Answered = [Seen; 3];

    fn compare(&self) -> Result<[Seen; 3], String> {
        let mut by_boundary = Buffer::of_noise(&mut Rng(self.noise), self.length);
        let noise = by_boundary
            .lent()
            .first_chunk()
            .copied()
            .unwrap_or_default();
        let mut stores = Stores {
            plain: Store::lent(self.length, header_of(noise)),
            by_types: by_boundary.clone(),
            by_boundary,
        };
        let mut seen = [Seen::default(); 3];
        for (i, (lent, step)) in self.steps.iter().enumerate() {
            stores.plain.length = *lent;
            let (kind, number) = match step {
                Step::Open(id) => (0, stores.open(*lent, *id)),
                Step::Offer(frame) => (1, stores.offer(*lent, frame)),
                Step::Ask(lengths, noise) => (2, stores.ask(*lent, *lengths, *noise)),
                Step::Write(header) => {
                    stores.plain.header = header_of(*header);
                    stores.by_boundary.lent()[..8].copy_from_slice(header);
                    stores.by_types.lent()[..8].copy_from_slice(header);
                    continue;
                }
            };
            let at_step = |difference| format!("step {i}: {difference}");
            seen[kind][usize::from(number.map_err(at_step)?)] += 1;
            let (found, expected) = (&stores.by_types, &stores.by_boundary);
            found
                .same_as("the store by types", expected)
                .map_err(at_step)?;
            stores.compare_told(*lent).map_err(at_step)?;
        }
        Ok(seen)
    }

    fn of_words(words: &mut Words) -> Self {
        let (length, noise) = (words.length(), words.number());
        let count = words.length();
        let steps = (0..count).map(|_| (words.length(), Step::of_words(words)));
        StoreCase {
            length,
            noise,
            steps: steps.collect(),
        }
    }
}

impl Step {
    fn of_words(words: &mut Words) -> Self {
        match words.next() {
            "open" => Step::Open(PageId {
                page_number: words.number() as u32,
                n: words.byte(),
                l: words.byte(),
            }),
            "offer" => Step::Offer(words.bytes()),
            "ask" => Step::Ask(Lengths::of_words(words), words.number()),
            "write" => Step::Write(words.bytes().try_into().expect("the bytes of a header")),
            other => panic!("there is no step {other}"),
        }
    }
}

impl fmt::Display for Step {
    fn fmt(&self, f: &mut fmt::Formatter) -> fmt::Result {
        match self {
            Step::Open(PageId { page_number, n, l }) => {
                write!(f, "open {page_number:x} {n:x} {l:x}")
            }
            Step::Offer(frame) => write!(f, "offer {}", word(frame)),
            Step::Ask(lengths, noise) => write!(f, "ask {lengths} {noise:x}"),
            Step::Write(header) => write!(f, "write {}", word(header)),
        }
    }
}

impl fmt::Display for StoreCase {
    fn fmt(&self, f: &mut fmt::Formatter) -> fmt::Result {
        let (length, noise, count) = (self.length, self.noise, self.steps.len());
        write!(f, "store {length:x} {noise:x} {count:x}")?;
        for (lent, step) in &self.steps {
            write!(f, " {lent:x} {step}")?;
        }
        Ok(())
    }
}
