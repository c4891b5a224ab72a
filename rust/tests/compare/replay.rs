//! Holds the test that runs a printed case again.

use std::env;

use crate::any_bytes::BytesCase;
use crate::both::BothCase;
use crate::case::{agree, Case, Words};
use crate::frames::FrameCase;
use crate::layings::LayCase;
use crate::lists::ListCase;
use crate::scans::ScanCase;
use crate::stores::StoreCase;

#[test]
#[ignore = "runs the case in MEKORVAT_CASE"]
fn replay() {
    let text = env::var("MEKORVAT_CASE").expect("MEKORVAT_CASE has the text of a case");
    let mut words = Words::of(&text);
    match words.next() {
        "frame" => run::<FrameCase>(&mut words),
        "lay" => run::<LayCase>(&mut words),
        "list" => run::<ListCase>(&mut words),
        "both" => run::<BothCase>(&mut words),
        "scan" => run::<ScanCase>(&mut words),
        "store" => run::<StoreCase>(&mut words),
        "bytes" => run::<BytesCase>(&mut words),
        other => panic!("there is no case of the kind {other}"),
    }
}

fn run<C: Case>(words: &mut Words) {
    agree(&C::of_words(words));
}
