//! Reads log pages that cross between two phones as flashing square codes.
//!
//! The reader itself is proved and comes as a static library; this crate calls it. "Document 01"
//! in these pages is the document that the proofs hold it to, "document 02" the one with what was
//! wished for since, and a number such as 6 is the answer number given there.
//!
//! # Reading a page
//!
//! A [`Scan`] takes what the camera sees and answers with the page, or with what to do next. Scan
//! on until the page is confirmed:
//!
//! ```
//! // Page 5 has one symbol of one byte. The first frame was misread, the second cut off.
//! let camera: [&[u8]; 4] = [
//!     &[1, 0, 4, 0, 0, 0, 5, 2, 0, 2, 1, 1, 3, 0, 4, 0, 0, 0, 0, 4, 0, 1, 7],
//!     &[1, 0],
//!     &[1, 0, 4, 0, 0, 0, 5, 2, 0, 2, 1, 1, 3, 0, 4, 0, 0, 0, 1, 4, 0, 1, 9],
//!     &[1, 0, 4, 0, 0, 0, 5, 2, 0, 2, 1, 1, 3, 0, 4, 0, 0, 0, 2, 4, 0, 1, 9],
//! ];
//!
//! let mut scan = mekorvat::Scan::new();
//! # let mut said = Vec::new();
//! for frame in camera {
//!     if let Err(refusal) = scan.offer(frame) {
//!         println!("{refusal}"); // the second frame: refused 11 at 2
//!         continue;
//!     }
//!     # said.push(scan.read().map(|page| (page.bytes[0], page.confirmed)));
//!     match scan.read() {
//!         Ok(page) if page.confirmed => println!("{:?}", page.bytes), // the last frame: [9]
//!         Ok(_) => println!("not confirmed yet: scan on"), // the first frame: it would be [7]
//!         Err(next) => println!("{next}"), // the third: one against one, so scan again
//!     }
//! }
//! # use mekorvat::Next::ScanAgain;
//! # assert_eq!(said, [Ok((7, false)), Err(ScanAgain), Ok((9, true))]);
//! ```
//!
//! # When to believe a page
//!
//! A frame gives a row. A frame that is held on the screen and seen thirty times is one row: rows
//! that are equal, seeds too, count once. So a misread frame outvotes nothing by being held.
//!
//! A page is made from n rows, the picked ones, and these always agree with it. So a page that
//! comes with all rows agreeing may still be wrong: if no other row uses a picked row, and that one
//! was misread, nothing shows it. [`Page::confirmed`] says that every picked row has a use.
//!
//! What is proved, of the reading's definition, for every list that gives a page (the file
//! docs/PROMISES.md leads to the theorems; that this crate reads the marks as they do is compared
//! with another program, not proved):
//!
//! - The page is confirmed exactly when no single misread row can have made it wrong: when there is
//!   no other page that all rows but at most one agree with, repeats not counted
//!   (`confirmed_means`, `one-misread`).
//! - Where the rank is n and a picked row has no use, any other payload in that row, and in its
//!   repeats, gives another page with the same rank, agreement, kept rows and uses
//!   (`unconfirmed`): no number and no mark tells the two apart.
//! - Where the rank is over n, the page is confirmed (`more-confirms`).
//!
//! Two or more misread rows can make a confirmed page wrong. A frame whose seed was misread is a
//! misread row too, and a held frame that was misread in two ways is two of them. How often
//! confirmed pages were wrong where it was tried is in docs/CONFIRMED.md: rarest where, with many
//! rows that agree beyond those n ([`Page::beyond`]), few disagree ([`Page::disagreeing`]).
//!
//! # Both versions of a page
//!
//! Where two phones saved one page, and frames of both came across, [`Scan::read_both`] gives the
//! page that all rows give, and what those rows give that do not agree with it. Which version comes
//! first is not promised, and where the two are mixed the first page may be neither.
//!
//! # A scan that is kept
//!
//! A scan stands on a store: the rows, and the working of their elimination, in 65,536 plain bytes.
//! Each frame is worked in when it is offered, so that [`Scan::read`] does not eliminate all rows
//! anew ([`Scan::read_both`] does). [`Scan::store`] gives these bytes to be saved, and
//! [`Scan::resume`] goes on with them after a restart.
//!
//! # With buffers of your own
//!
//! [`read_frame`], [`lay`], [`read_list`] and [`read_both`] allocate nothing and work in the
//! buffers that you lend; [`Answer::confirmed`] reads off them whether a page is confirmed, and
//! [`counted`] how many rows of a list count. [`open`], [`offer`] and [`ask`] do the same with a
//! store, and [`stored`] says what is in one. [`boundary`] has the same seven functions with nothing
//! but numbers and slices.
//!
//! A held frame that is laid or offered again takes one of the 512 places of a list or a store,
//! though it adds nothing. A [`Scan`] offers each row once; in a list of your own, [`repeat_of`]
//! tells when the next frame may take the same place.

#![warn(missing_docs)]
#![deny(unsafe_code)]

mod asking;
mod both;
pub mod boundary;
mod frame;
mod laying;
mod marks;
mod offering;
mod page;
mod page_id;
mod reading;
mod repeats;
mod resuming;
mod scan;
mod store;

pub use asking::{ask, AskRefusal, Asked};
pub use both::{read_both, Both, Second};
pub use frame::{read_frame, Frame, FrameRefusal};
pub use laying::{lay, LayRefusal};
pub use marks::{marks, uses, Mark};
pub use offering::{offer, OfferRefusal};
pub use page::{Next, Other, Page, Versions};
pub use page_id::{PageId, LONGEST_PAGE, LONGEST_ROW, MOST_ROWS, SCRATCH_BYTES};
pub use reading::{read_list, Answer};
pub use repeats::{counted, repeat_of};
pub use resuming::ResumeRefusal;
pub use scan::Scan;
pub use store::{open, stored, OpenRefusal, StoreRefusal, Stored, STORE_BYTES};
