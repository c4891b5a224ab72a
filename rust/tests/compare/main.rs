//! Compares the proved reader with the independent decoder of docs/src, byte for byte, and holds
//! it to document 01's worked cases.
//!
//! `MEKORVAT_SEED=7 cargo test` draws other inputs. A case that fails is printed with all of them
//! in hexadecimal digits, for a lent buffer its length and the seed of the noise in it (of any bytes
//! in place of a store the seed alone), and `MEKORVAT_CASE='..' cargo test replay -- --ignored` runs
//! it again.

mod any_bytes;
mod both;
mod buffer;
mod case;
mod confirmed;
mod edges;
mod frames;
mod known;
mod layings;
mod lists;
mod random_lists;
mod random_stores;
mod replay;
mod resumes;
mod rounds;
mod scan_examples;
mod scans;
mod stores;
mod story;
