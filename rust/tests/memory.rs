//! Holds what a scan says of its memory: so many bytes when it is made, and none after.

use std::alloc::{GlobalAlloc, Layout, System};
use std::cell::Cell;

use mekorvat::Scan;

thread_local! {
    /// The bytes that this thread has asked for.
    static ASKED_FOR: Cell<usize> = const { Cell::new(0) };
}

struct Counting;

// SAFETY: all is done by the system's allocator; that bytes are counted changes nothing of it.
unsafe impl GlobalAlloc for Counting {
    unsafe fn alloc(&self, layout: Layout) -> *mut u8 {
        ASKED_FOR.set(ASKED_FOR.get() + layout.size());
        System.alloc(layout)
    }

    unsafe fn dealloc(&self, bytes: *mut u8, layout: Layout) {
        System.dealloc(bytes, layout);
    }
}

#[global_allocator]
static COUNTING: Counting = Counting;

/// How many bytes are asked for on the way to what is given.
fn asked_for<T>(given: impl FnOnce() -> T) -> (usize, T) {
    let before = ASKED_FOR.get();
    let given = given();
    (ASKED_FOR.get() - before, given)
}

/// Frames of two versions of the largest page, more than a scan has rows for.
fn frames() -> Vec<Vec<u8>> {
    let frame = |seed: u32| {
        let page = [[7; 2_048], [9; 2_048]][usize::from(seed % 5 > 2)];
        let mut frame = vec![0; 54];
        plain::frame::write(5, 64, 32, seed, &page, &mut frame);
        frame
    };
    (0..520).map(frame).collect()
}

#[test]
fn a_scan_allocates_when_it_is_made() {
    let frames = frames();
    let (made, mut scan) = asked_for(Scan::new);
    assert_eq!(made, 128_000);
    let (after, answered) = asked_for(|| {
        for frame in &frames {
            let _ = scan.offer(frame);
            let _ = scan.offer(&frame[1..]);
            let _ = scan.read();
        }
        scan.read_both().is_ok()
    });
    assert!(answered);
    assert_eq!((scan.rows(), after), (512, 0));
}
