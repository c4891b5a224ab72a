//! Holds what a scan goes on with: every store that was made by calls, and of changed ones none but
//! those that are stores as well.

use mekorvat::{offer, open, PageId, ResumeRefusal, Scan, STORE_BYTES};
use plain::rng::Rng;

use crate::frames::frame_of;
use crate::random_stores::random_shown;
use crate::rounds::{assert_frequent, rounds};
use crate::stores::LIST_START;

const ROUNDS: usize = 20_000;

/// What came of a store with one byte changed.
#[derive(Clone, Copy)]
enum Told {
    Header,
    Changed,
    AnotherStore,
}

/// The store of a scan that has seen some frames.
fn random_store(rng: &mut Rng) -> Vec<u8> {
    let mut shown = random_shown(rng);
    let mut scan = Scan::of_page(shown.id);
    for _ in 0..rng.below(30) {
        let _ = scan.offer(&shown.frame(rng));
    }
    scan.store().unwrap().to_vec()
}

/// A byte of the header, of a row, of the working, or any.
fn random_place(rng: &mut Rng, list: usize) -> usize {
    match rng.below(4) {
        0 => rng.below(LIST_START),
        1 if list > 0 => LIST_START + rng.below(list),
        2 => 32_768 + rng.below(31_872),
        _ => rng.below(STORE_BYTES),
    }
}

/// Whether rows that differ in this byte of their list alone can leave the same working: in a seed,
/// where both seeds name the same constraint.
fn in_a_seed(at: usize, list: usize, row_bytes: usize) -> bool {
    at >= LIST_START && at < LIST_START + list && (at - LIST_START) % row_bytes < 4
}

fn one_byte_changed(rng: &mut Rng) -> Told {
    let mut store = random_store(rng);
    let told = mekorvat::stored(&store).unwrap();
    let (list, row_bytes) = (told.list.len(), told.id.row_bytes());
    let at = random_place(rng, list);
    store[at] ^= [1 << rng.below(8), 1 + rng.below(255) as u8][rng.below(2)];
    match Scan::resume(&store) {
        Err(ResumeRefusal::Length { bytes }) => panic!("{bytes} bytes are a store's"),
        Err(ResumeRefusal::Header) => {
            assert!((4..8).contains(&at), "byte {at}");
            Told::Header
        }
        Err(ResumeRefusal::Changed) => Told::Changed,
        Ok(scan) => {
            assert!(at < 6 || in_a_seed(at, list, row_bytes), "byte {at}");
            assert!(scan.store() == Some(&store));
            Told::AnotherStore
        }
    }
}

/// No bit of a payload, of a constraint or of the working is changed and gone on with.
#[test]
fn stores_with_a_byte_changed() {
    let seen = rounds("stores with a byte changed", ROUNDS, |_, rng| {
        one_byte_changed(rng) as u8
    });
    let all = [Told::Header, Told::Changed, Told::AnotherStore];
    assert_frequent(&seen, &all.map(|told| told as u8));
}

const ID: PageId = PageId {
    page_number: 5,
    n: 1,
    l: 1,
};

/// A store that was offered these frames of page 5, each a seed and a byte.
fn store_of(frames: &[(u32, u8)]) -> Vec<u8> {
    let mut store = vec![0; STORE_BYTES];
    open(&mut store, ID).unwrap();
    for &(seed, byte) in frames {
        offer(&mut store, &frame_of(5, 1, 1, seed, &[byte])).unwrap();
    }
    store
}

#[test]
fn no_store_at_all() {
    let store = store_of(&[(0, 7)]);
    for bytes in [0, 1, STORE_BYTES - 1, STORE_BYTES + 1] {
        let mut lent = store.clone();
        lent.resize(bytes, 0);
        let refused = Scan::resume(&lent).unwrap_err();
        assert_eq!(refused, ResumeRefusal::Length { bytes });
        let words = format!("a store has 65536 bytes, and these are {bytes}");
        assert_eq!(refused.to_string(), words);
    }
    let zeros = Scan::resume(&[0; STORE_BYTES]).unwrap_err();
    assert_eq!(zeros, ResumeRefusal::Header);
}

/// What bytes alone can't tell.
#[test]
fn another_page_number() {
    let mut store = store_of(&[(0, 7), (1, 9), (2, 9)]);
    store[3] = 6;
    let mut scan = Scan::resume(&store).unwrap();
    assert_eq!(scan.expected().unwrap().page_number, 6);
    assert_eq!(scan.read().unwrap().bytes, [9]);
}

#[test]
fn a_store_with_no_rows() {
    let mut scan = Scan::resume(&store_of(&[])).unwrap();
    assert_eq!((scan.expected(), scan.rows()), (Some(ID), 0));
    assert_eq!(scan.offer(&frame_of(5, 1, 1, 0, &[7])), Ok(0));
    assert!(scan.store() == Some(&store_of(&[(0, 7)])));
}

/// No scan makes such a store; in an app of other functions it may come about.
#[test]
fn a_store_with_repeats() {
    let held = [(0, 7), (0, 7), (1, 9), (0, 7), (2, 9), (1, 9)];
    let mut scan = Scan::resume(&store_of(&held)).unwrap();
    assert_eq!((scan.rows(), scan.held()), (3, 3));
    assert!(scan.store() == Some(&store_of(&[(0, 7), (1, 9), (2, 9)])));
    let page = scan.read().unwrap();
    assert_eq!((page.bytes, page.rows, page.agreement), (&[9][..], 3, 2));
}

#[test]
fn a_full_store() {
    let frames: Vec<_> = (0..512).map(|seed| (seed, 7)).collect();
    let mut scan = Scan::resume(&store_of(&frames)).unwrap();
    assert_eq!(scan.rows(), 512);
    let next = frame_of(5, 1, 1, 512, &[7]);
    assert_eq!(scan.offer(&next).unwrap_err().number(), 2);
    assert_eq!(scan.read().unwrap().agreement, 512);
}

#[test]
fn no_store_before_the_page_is_known() {
    let mut scan = Scan::new();
    assert_eq!(scan.store(), None);
    scan.offer(&frame_of(5, 1, 1, 0, &[7])).unwrap();
    assert!(scan.store() == Some(&store_of(&[(0, 7)])));
    let out_of_range = PageId { n: 65, ..ID };
    assert_eq!(Scan::of_page(out_of_range).store(), None);
}
