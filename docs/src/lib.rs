//! Holds the independent second program: the rules of document 01, and of wishes 1 to 3 and 5 of document 02, in plain Rust.

pub mod both;
pub mod draw;
pub mod frame;
pub mod list;
pub mod number;
pub mod page;
pub mod reading;
pub mod rng;
pub mod store;
pub mod straight;
pub mod table;

#[cfg(test)]
mod tests;
