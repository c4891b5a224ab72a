//! Holds the stories that all this is for: page 212, saved by two phones, and a frame of it misread,
//! once or for as long as it is held on the screen.

use mekorvat::{
    lay, read_both, read_frame, Answer, Both, Next, Other, Scan, Second, SCRATCH_BYTES,
};
use plain::rng::Rng;

use crate::frames::frame_of;
use crate::rounds::{assert_frequent, rounds};

const N: u8 = 6;
const L: u8 = 24;
const ROUNDS: usize = 2_000;

/// Her version has the oil change, which the other phone never saw.
const HERS: [&str; 6] = [
    "Tu 0710 bearing greased",
    "Tu 1815 oil change",
    "We 0705 41 C, belt good",
    "We 1830 filter blown out",
    "Th 0715 41 C, no noise",
    "Th 1820 Mira is next",
];
const OTHERS: [&str; 6] = [
    HERS[0],
    "Tu 1820 43 C, no noise",
    HERS[2],
    HERS[3],
    HERS[4],
    HERS[5],
];

/// The bytes of a page, an entry to a symbol.
fn page(entries: [&str; 6]) -> Vec<u8> {
    let entries = entries.map(|entry| format!("{entry:24}"));
    entries.concat().into_bytes()
}

/// The frame of page 212 that a phone shows for a seed, by the independent writer.
fn frame(page: &[u8], seed: u32) -> Vec<u8> {
    let mut frame = vec![0; 22 + usize::from(L)];
    assert_eq!(plain::frame::write(212, N, L, seed, page, &mut frame).0, 0);
    frame
}

/// A third phone that took these frames.
fn scan_of<'a>(frames: impl IntoIterator<Item = (&'a Vec<u8>, u32)>) -> Scan {
    let mut scan = Scan::new();
    for (page, seed) in frames {
        scan.offer(&frame(page, seed)).unwrap();
    }
    scan
}

#[test]
fn both_versions_come_back() {
    let (hers, others) = (page(HERS), page(OTHERS));
    // Three frames of hers for two of the other's.
    let shown = |seed| if seed % 5 < 3 { &hers } else { &others };
    let mut scan = scan_of((0..60).map(|seed| (shown(seed), seed)));
    let versions = scan.read_both().unwrap();
    let Other::Page(other) = versions.other else {
        panic!("the other version is {:?}", versions.other);
    };
    // Either may come first: the frames weigh as the sums they happen to be.
    let mut given = [versions.page.bytes, other.bytes];
    given.sort();
    assert_eq!(given, [&hers[..], &others[..]]);
    // A frame that leaves the entry out is of both versions.
    let apart = |&seed: &u32| frame(shown(seed), seed) != frame(versions.page.bytes, seed);
    let apart = (0..60).filter(apart).count();
    assert_eq!((other.rows, other.agreement), (apart, apart));
    assert_eq!(versions.page.disagreeing(), apart);
}

/// Every frame is seen eight times, and both versions are what they are of each frame seen once.
#[test]
fn both_versions_of_held_frames() {
    let (hers, others) = (page(HERS), page(OTHERS));
    let shown = |seed| if seed % 5 < 3 { &hers } else { &others };
    let seeds = |times: usize| (0..60).flat_map(move |seed| [seed].repeat(times));
    let mut once = scan_of(seeds(1).map(|seed| (shown(seed), seed)));
    let mut held = scan_of(seeds(8).map(|seed| (shown(seed), seed)));
    assert_eq!(held.held(), 7 * 60);
    assert_eq!(held.read_both(), once.read_both());

    // In a list that has all 480, those of the second list are there eight times too.
    let frames: Vec<_> = seeds(8).map(|seed| frame(shown(seed), seed)).collect();
    let (both, given) = read_both_laid(&frames);
    let versions = once.read_both().unwrap();
    let apart = versions.page.disagreeing();
    assert_eq!(given, versions.page.bytes);
    assert_eq!(both.rows, 8 * apart);
    let agreements = (both.first.agreement(), both.second.agreement());
    assert_eq!(agreements, (60 - apart, apart));
}

#[test]
fn a_balance_is_scanned_again() {
    let (hers, others) = (page(HERS), page(OTHERS));
    let hers_first = (0..12).map(|seed| (&hers, seed));
    let mut scan = scan_of(hers_first.chain((1000..1012).map(|seed| (&others, seed))));
    assert_eq!(scan.read_both(), Err(Next::ScanAgain));
    // One frame more of hers, and both come back.
    scan.offer(&frame(&hers, 12)).unwrap();
    let versions = scan.read_both().unwrap();
    assert_eq!(versions.page.bytes, hers);
    assert!(matches!(versions.other, Other::Page(other) if other.bytes == others));
}

/// The page with the oil change an hour late.
const LATE: [&str; 6] = [
    HERS[0],
    "Tu 1915 oil change",
    HERS[2],
    HERS[3],
    HERS[4],
    HERS[5],
];

/// One bit of one frame is misread. Every frame agrees, two more than there are entries, and the
/// page is wrong. Only that it is not confirmed tells.
#[test]
fn a_wrong_page_with_every_frame_agreeing() {
    let hers = page(HERS);
    let mut misread = frame(&hers, 45);
    misread[22 + 4] ^= 1;
    let mut scan = Scan::new();
    scan.offer(&misread).unwrap();
    for seed in 46..53 {
        scan.offer(&frame(&hers, seed)).unwrap();
    }
    let given = scan.read().unwrap();
    assert_eq!(given.bytes, page(LATE));
    assert_eq!((given.rows, given.agreement, given.rank), (8, 8, 6));
    assert_eq!((given.beyond(), given.disagreeing()), (2, 0));
    assert!(!given.confirmed);
    assert_eq!(scan.answer().unwrap().number(), 0);
    // Of the frames that no other frame checks, the misread one is the first.
    let alone = scan.marks().position(|mark| mark.alone());
    assert_eq!(alone, Some(0));

    // The next frame says otherwise, and the one after it settles the page.
    scan.offer(&frame(&hers, 53)).unwrap();
    assert_eq!(scan.read(), Err(Next::ScanAgain));
    scan.offer(&frame(&hers, 54)).unwrap();
    let given = scan.read().unwrap();
    assert_eq!(given.bytes, hers);
    assert_eq!((given.beyond(), given.disagreeing()), (3, 1));
    assert!(given.confirmed);
}

/// Ten of her frames, each seen once, and before them one that is misread in one bit and held thirty
/// times.
fn frames_with_one_held() -> Vec<Vec<u8>> {
    let hers = page(HERS);
    let good = (216..226).map(|seed| frame(&hers, seed)).collect();
    let mut misread = frame(&hers, 215);
    misread[22 + 4] ^= 1;
    [vec![misread; 30], good].concat()
}

/// The camera sees a held frame thirty times, and misreads it each time in the same way: that is one
/// frame against the page, and the page comes through. When all thirty counted, 38 of these 40
/// agreed with the oil change an hour late.
#[test]
fn a_misread_frame_held_thirty_times() {
    let mut scan = Scan::new();
    for shown in frames_with_one_held() {
        scan.offer(&shown).unwrap();
    }
    let given = scan.read().unwrap();
    assert_eq!(given.bytes, page(HERS));
    assert!(given.confirmed);
    assert_eq!((given.rows, given.agreement), (11, 10));
    assert_eq!((given.beyond(), given.disagreeing()), (4, 1));
    assert_eq!(scan.held(), 29);
}

/// The same in a list that has all thirty: the proved reader counts them once.
#[test]
fn a_held_frame_laid_thirty_times() {
    let (both, given) = read_both_laid(&frames_with_one_held());
    assert_eq!((both.first.rank(), both.first.agreement()), (7, 10));
    assert_eq!(given, page(HERS));
    assert_eq!((both.second, both.rows), (Answer::Few { rank: 1 }, 30));
}

/// Thirty rows equal but for their seeds count thirty times, and are no held frame: here they are
/// thirty frames that all say the same wrong thing of the one entry there is. They outvote the two
/// that are right; that 2 frames disagree is all that tells.
#[test]
fn thirty_rows_equal_but_for_their_seeds() {
    let one = |seed, byte| frame_of(5, 1, 1, seed, &[byte]);
    let wrong = (0..30).map(|seed| one(seed, 7));
    let mut scan = Scan::new();
    for shown in wrong.chain([one(30, 9), one(31, 9)]) {
        scan.offer(&shown).unwrap();
    }
    let given = scan.read().unwrap();
    assert_eq!((given.bytes, given.agreement), (&[7][..], 30));
    assert_eq!((given.disagreeing(), scan.held()), (2, 0));
    let uses: Vec<u16> = scan.marks().map(|mark| mark.uses()).collect();
    assert_eq!((uses[0], uses[30]), (29, 1));
}

/// Lays all these frames of page 212 into one list, held or not, and reads both versions of it: the
/// answers and the first page.
fn read_both_laid(frames: &[Vec<u8>]) -> (Both, Vec<u8>) {
    let id = read_frame(&frames[0]).unwrap().id;
    let mut list = vec![0; frames.len() * id.row_bytes()];
    for (arrival, frame) in frames.iter().enumerate() {
        lay(frame, id, arrival, &mut list).unwrap();
    }
    let lend = |size: usize| vec![0; size * frames.len()];
    let (mut page, mut uses, mut roles) = (vec![0; id.page_bytes()], lend(2), lend(1));
    let (mut page2, mut uses2, mut roles2) = (page.clone(), lend(2), lend(1));
    let second = Second {
        list: &mut list.clone(),
        page: &mut page2,
        uses: &mut uses2,
        roles: &mut roles2,
    };
    let both = read_both(
        id.n,
        id.l,
        &list,
        &mut page,
        &mut uses,
        &mut roles,
        second,
        &mut [0; SCRATCH_BYTES],
    );
    (both, page)
}

/// What a keeper would have had who takes the first page that comes.
#[derive(Clone, Copy)]
enum First {
    Confirmed,
    Right,
    Wrong,
}

/// One frame is misread, in its seed or its payload, whichever it is, and every frame is held for a
/// while: who scans on until the page is confirmed has what she wrote.
#[test]
fn scanned_on_until_confirmed() {
    let seen = rounds("scans with a frame misread", ROUNDS, |_, rng| {
        one_misread(rng) as u8
    });
    let all = [First::Confirmed, First::Right, First::Wrong];
    assert_frequent(&seen, &all.map(|first| first as u8));
}

fn one_misread(rng: &mut Rng) -> First {
    let hers = page(HERS);
    let misread = rng.below(20);
    let mut scan = Scan::new();
    let mut first = None;
    for arrival in 0.. {
        let mut shown = frame(&hers, rng.draw() as u32);
        if arrival == misread {
            // The seed is at 15 to 18, the payload from 22 on.
            let byte = [15 + rng.below(4), 22 + rng.below(24)][rng.below(2)];
            shown[byte] ^= 1 + rng.below(255) as u8;
        }
        for _ in 0..1 + rng.below(30) {
            assert_eq!(scan.offer(&shown), Ok(arrival));
        }
        let Ok(given) = scan.read() else {
            continue;
        };
        let first = *first.get_or_insert(match given.bytes == hers {
            true if given.confirmed => First::Confirmed,
            true => First::Right,
            false => First::Wrong,
        });
        if given.confirmed {
            assert_eq!(given.bytes, hers);
            return first;
        }
    }
    unreachable!("the list is never full before the page is confirmed");
}

/// What came of a mix of frames.
#[derive(Clone, Copy)]
enum Told {
    ScanMore,
    ScanAgain,
    OneVersion,
    BothVersions,
    FramesAgainst,
}

/// Frames of both versions in any share and order: a frame against the page that is given is
/// always told of, so neither version vanishes without a word.
#[test]
fn nothing_vanishes_without_a_word() {
    let seen = rounds("mixes", ROUNDS, |_, rng| mix(rng) as u8);
    let all = [
        Told::ScanMore,
        Told::ScanAgain,
        Told::OneVersion,
        Told::BothVersions,
        Told::FramesAgainst,
    ];
    assert_frequent(&seen, &all.map(|told| told as u8));
}

fn mix(rng: &mut Rng) -> Told {
    let (hers, others) = (page(HERS), page(OTHERS));
    let share = rng.below(9);
    let frames: Vec<_> = (0..rng.below(60))
        .map(|_| {
            let version = if rng.below(8) < share { &hers } else { &others };
            let seed = rng.draw() as u32;
            (seed, frame(version, seed))
        })
        .collect();
    let mut scan = Scan::new();
    for (_, frame) in &frames {
        scan.offer(frame).unwrap();
    }
    let versions = match scan.read_both() {
        Ok(versions) => versions,
        Err(Next::ScanAgain) => return Told::ScanAgain,
        Err(_) => return Told::ScanMore,
    };
    let given = versions.page.bytes;
    let against = frames
        .iter()
        .filter(|(seed, shown)| *shown != frame(given, *seed));
    assert_eq!(versions.page.disagreeing(), against.count());
    match versions.other {
        Other::None => {
            assert_eq!(versions.page.disagreeing(), 0);
            Told::OneVersion
        }
        Other::Page(_) => Told::BothVersions,
        Other::Unsettled(_) => Told::FramesAgainst,
    }
}
