//! Holds single scans: document 01's example of its program, with wish 2's place, and what an app
//! may lean on.

use mekorvat::{Answer, LayRefusal, Next, PageId, Scan};

use crate::frames::frame_of;

#[test]
fn example_of_the_program() {
    let frames = [(0, 7), (1, 9), (2, 9)].map(|(seed, byte)| frame_of(5, 1, 1, seed, &[byte]));
    let mut scan = Scan::new();
    for (arrival, frame) in frames.iter().enumerate() {
        assert_eq!(scan.offer(frame), Ok(arrival));
    }
    let cut = scan.offer(&frames[0][..2]).unwrap_err();
    assert_eq!((cut.number(), cut.place()), (11, 2));
    let page = scan.read().unwrap();
    assert_eq!((page.id.page_number, page.id.n, page.id.l), (5, 1, 1));
    assert_eq!((page.rows, page.rank, page.agreement), (3, 2, 2));
    assert_eq!((page.bytes, page.disagreeing()), (&[9][..], 1));
}

#[test]
fn a_refused_frame_changes_nothing() {
    let mut scan = Scan::new();
    assert!(scan.offer(&[1, 0]).is_err());
    assert_eq!((scan.expected(), scan.rows()), (None, 0));

    let frame = frame_of(5, 1, 1, 0, &[7]);
    scan.offer(&frame).unwrap();
    scan.read().unwrap();
    let other = scan.offer(&frame_of(6, 1, 1, 0, &[7]));
    assert_eq!(other, Err(LayRefusal::OtherPage));
    assert_eq!((scan.rows(), scan.marks().count()), (1, 1));
    assert!(scan.answer().is_some());

    // A row that is laid outdates the answer and the marks.
    scan.offer(&frame_of(5, 1, 1, 1, &[7])).unwrap();
    assert_eq!((scan.rows(), scan.marks().count()), (2, 0));
    assert!(scan.answer().is_none());
}

#[test]
fn a_held_frame_changes_nothing() {
    let frames = [(0, 7), (1, 9), (2, 9)].map(|(seed, byte)| frame_of(5, 1, 1, seed, &[byte]));
    let mut scan = Scan::new();
    for frame in &frames {
        scan.offer(frame).unwrap();
    }
    let page = scan.read().unwrap().bytes.to_vec();
    let answer = scan.answer();
    for (arrival, frame) in frames.iter().enumerate() {
        for _ in 0..30 {
            assert_eq!(scan.offer(frame), Ok(arrival));
        }
    }
    assert_eq!((scan.rows(), scan.held()), (3, 90));
    assert_eq!((scan.answer(), scan.marks().count()), (answer, 3));
    assert_eq!(scan.read().unwrap().bytes, page);
    assert_eq!(scan.answer(), answer);
}

/// A camera that sees each frame thirty times sees 1,920 until 64 symbols can be there.
#[test]
fn held_frames_do_not_fill_the_list() {
    let written: Vec<u8> = (0..64).collect();
    let mut scan = Scan::new();
    let mut frame = [0; 23];
    for seed in 0..75 {
        plain::frame::write(5, 64, 1, seed, &written, &mut frame);
        for _ in 0..30 {
            scan.offer(&frame).unwrap();
        }
    }
    assert_eq!((scan.rows(), scan.held()), (75, 75 * 29));
    let page = scan.read().unwrap();
    assert_eq!((page.bytes, page.agreement), (&written[..], 75));
}

#[test]
fn a_known_page() {
    let id = PageId {
        page_number: 6,
        n: 1,
        l: 1,
    };
    let mut scan = Scan::of_page(id);
    assert_eq!(scan.read(), Err(Next::ScanMore));
    let other = scan.offer(&frame_of(5, 1, 1, 0, &[7]));
    assert_eq!(other, Err(LayRefusal::OtherPage));
    assert_eq!(scan.offer(&frame_of(6, 1, 1, 0, &[7])), Ok(0));
    assert_eq!(scan.read().unwrap().bytes, [7]);
}

#[test]
fn a_known_page_out_of_range() {
    for (n, l) in [(0, 1), (65, 1), (255, 255), (1, 0), (1, 33)] {
        let page_number = 6;
        let mut scan = Scan::of_page(PageId { page_number, n, l });
        let offered = scan.offer(&frame_of(6, 1, 1, 0, &[7]));
        assert_eq!(offered, Err(LayRefusal::Shape));
        assert_eq!(scan.read(), Err(Next::StartAnew));
        assert_eq!(scan.answer(), Some(Answer::Shape));
        assert_eq!(scan.marks().count(), 0);
    }
}

#[test]
fn a_513th_row() {
    let mut scan = Scan::new();
    for seed in 0..512 {
        let frame = frame_of(5, 1, 1, seed, &[7 + seed as u8 % 2]);
        assert_eq!(scan.offer(&frame), Ok(seed as usize));
    }
    let frame = frame_of(5, 1, 1, 512, &[7]);
    assert_eq!(scan.offer(&frame), Err(LayRefusal::List));
    // Document 01's order has 16 before 2.
    let other = scan.offer(&frame_of(6, 1, 1, 0, &[7]));
    assert_eq!(other, Err(LayRefusal::OtherPage));
    // 256 against 256.
    assert_eq!(scan.read(), Err(Next::StartAnew));
    assert_eq!(scan.answer(), Some(Answer::Tie { rank: 2 }));
}
