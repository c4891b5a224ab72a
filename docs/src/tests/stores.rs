//! Holds the tests of the store: every refusal in its order, and asking against a list laid beside it.

use super::*;
use crate::frame::{lay, write};
use crate::store::{Header, Store, STORE};

/// A frame of page 212, which has one symbol of one byte.
fn frame(seed: u8, byte: u8) -> Vec<u8> {
    let mut frame = vec![0; 23];
    let seed = u32::from(seed);
    assert_eq!(write(212, 1, 1, seed, &[byte], &mut frame), (DONE, 0));
    frame
}

/// A store open for page 212.
fn opened() -> Store {
    let mut store = Store::lent(STORE, Header::default());
    assert_eq!(store.open(212, 1, 1), DONE);
    store
}

impl Lent {
    fn ask(&mut self, store: &Store) -> (Answer, usize) {
        let (page, uses) = (&mut self.page, &mut self.uses);
        store.ask(page, uses, &mut self.roles, &mut self.scratch)
    }
}

/// The number of an answer that leaves every lent byte as it was, and how many rows it tells of.
fn refused(store: &Store, shorten: impl Fn(&mut Lent)) -> (u8, usize) {
    let mut before = Lent::noise(&mut Rng(13), 1, 1, 0);
    shorten(&mut before);
    let mut lent = before.clone();
    let (answer, rows) = lent.ask(store);
    assert_eq!(answer, Answer::without_page(answer.number, 0));
    assert!(lent == before);
    (answer.number, rows)
}

#[test]
fn opening() {
    let mut store = opened();
    store.offer(&frame(0, 7));
    let before = store.clone();
    for (n, l) in [(0, 1), (65, 1), (255, 1), (1, 0), (1, 33), (1, 255)] {
        assert_eq!(store.open(213, n, l), SHAPE);
    }
    assert_eq!(store, before);
    assert_eq!(store.open(213, 64, 32), DONE);
    let fresh = Header {
        page_number: 213,
        n: 64,
        l: 32,
        rows: 0,
    };
    assert_eq!(store, Store::lent(STORE, fresh));

    let mut short = Store::lent(STORE - 1, Header::default());
    let before = short.clone();
    assert_eq!(short.open(212, 0, 1), SHAPE);
    assert_eq!(short.open(212, 1, 1), ROOM);
    assert_eq!(short, before);
}

#[test]
fn a_header_out_of_range() {
    let good = opened().header;
    for header in [
        Header::default(),
        Header { n: 65, ..good },
        Header { l: 0, ..good },
        Header { l: 33, ..good },
        Header { rows: 513, ..good },
    ] {
        let mut store = Store::lent(STORE, header);
        assert_eq!(store.offer(&[]), (HEADER, 0));
        assert_eq!(refused(&store, |lent| lent.page.clear()), (HEADER, 0));
        store.length -= 1;
        assert_eq!(store.offer(&[]), (ROOM, 0));
        assert_eq!(refused(&store, |_| ()), (ROOM, 0));
    }
    let full = Header { rows: 512, ..good };
    assert_eq!(Store::lent(STORE, full).offer(&frame(0, 7)), (LIST, 0));
}

#[test]
fn offers_refused_in_order() {
    let mut store = opened();
    for seed in 0..512 {
        assert_eq!(store.offer(&frame(seed as u8, 7)), (DONE, 0));
    }
    let before = store.clone();
    let good = frame(0, 7);
    assert_eq!(store.offer(&good[..22]), (SHORT, 22));
    assert_eq!(store.offer(&[9; 3]), (TAG, 0));
    assert_eq!(store.offer(&[&good[..], &[0]].concat()), (TRAILING, 23));
    for (at, byte) in [(6, 5), (10, 2)] {
        let mut other = good.clone();
        other[at] = byte;
        assert_eq!(store.offer(&other), (OTHER_PAGE, 0));
    }
    assert_eq!(store.offer(&good), (LIST, 0));
    assert_eq!(store, before);
}

#[test]
fn asking_refused_in_order() {
    let mut store = opened();
    for seed in 0..8 {
        store.offer(&frame(seed, 7));
    }
    // Long enough for no rows, but not for eight.
    assert_eq!(refused(&store, |_| ()), (ROOM, 8));
    assert_eq!(refused(&store, |lent| lent.scratch.clear()), (ROOM, 8));
    let (answer, rows) = Lent::noise(&mut Rng(14), 1, 1, 8).ask(&store);
    assert_eq!((answer.number, answer.agreement, rows), (DONE, 8, 8));
}

/// Document 01's example of its program, frame by frame, with the second frame held.
#[test]
fn asked_after_each_frame() {
    let mut store = opened();
    let mut ask = |frame: Option<Vec<u8>>| {
        frame.map(|frame| store.offer(&frame));
        let mut lent = Lent::noise(&mut Rng(15), 1, 1, 4);
        let (answer, rows) = lent.ask(&store);
        (answer.number, rows, answer.rank, answer.agreement)
    };
    assert_eq!(ask(None), (FEW, 0, 0, 0));
    assert_eq!(ask(Some(frame(0, 7))), (DONE, 1, 1, 1));
    assert_eq!(ask(Some(frame(1, 9))), (TIE, 2, 2, 0));
    assert_eq!(ask(Some(frame(1, 9))), (TIE, 3, 2, 0));
    assert_eq!(ask(Some(frame(2, 9))), (DONE, 4, 2, 2));
}

/// Frames of every kind, offered and laid: the rows and the answers are the same.
#[test]
fn stores_and_lists() {
    let mut rng = Rng(16);
    for _ in 0..500 {
        let (n, l) = (1 + rng.below(6) as u8, 1 + rng.below(3) as u8);
        let page = rng.bytes(usize::from(n) * usize::from(l));
        let mut store = Store::lent(STORE, Header::default());
        store.open(5, n, l);
        let mut list = vec![0; 20 * row_length(l)];
        let mut rows = 0;
        for _ in 0..20 {
            let mut frame = vec![0; 22 + usize::from(l)];
            write(5, n, l, rng.below(40) as u32, &page, &mut frame);
            let at = rng.below(2 * frame.len());
            if let Some(byte) = frame.get_mut(at) {
                *byte ^= 1 << rng.below(8);
            }
            let laid = lay(&frame, 5, n, l, rows, &mut list);
            assert_eq!(store.offer(&frame), laid);
            rows += usize::from(laid.0 == DONE);
        }
        list.truncate(rows * row_length(l));
        assert_eq!(store.list(), list);

        let before = Lent::noise(&mut rng, n, l, rows);
        let (mut asked, mut read) = (before.clone(), before);
        let expected = read.read(n, l, &list);
        assert_eq!(asked.ask(&store), (expected, rows));
        assert!(asked == read);
    }
}
