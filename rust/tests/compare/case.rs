//! Holds what the compared cases have in common: their text, and how a difference is told.

use std::fmt::{Debug, Display};
use std::str::SplitWhitespace;

/// All inputs of one call. As text it is a name and words of hexadecimal digits.
pub trait Case: Display {
    /// What both programs answer with: a number, or how often each.
    type Answered;

    /// What both programs answer with, or in what they differ.
    fn compare(&self) -> Result<Self::Answered, String>;

    /// The case whose text, past its name, has these words.
    fn of_words(words: &mut Words) -> Self
    where
        Self: Sized;
}

/// Wants both programs to agree, and gives what they answer with.
pub fn agree<C: Case>(case: &C) -> C::Answered {
    case.compare().unwrap_or_else(|difference| {
        panic!(
            "{difference}\nto run it again: MEKORVAT_CASE='{case}' cargo test replay -- --ignored"
        );
    })
}

/// Asks for equality, and names what differs.
pub fn same<T: PartialEq + Debug>(what: &str, found: T, expected: T) -> Result<(), String> {
    if found == expected {
        return Ok(());
    }
    Err(format!("{what}: {found:?}, but expected {expected:?}"))
}

/// Asks for equal bytes, all of them, and names the first that differ.
pub fn same_bytes(what: &str, found: &[u8], expected: &[u8]) -> Result<(), String> {
    if found == expected {
        return Ok(());
    }
    let pairs = found.iter().zip(expected);
    let at = pairs
        .take_while(|(found, expected)| found == expected)
        .count();
    let (found, expected) = (found.get(at), expected.get(at));
    Err(format!(
        "{what}, byte {at}: {found:?}, but expected {expected:?}"
    ))
}

/// Bytes as one word, which is never empty.
pub fn word(bytes: &[u8]) -> String {
    if bytes.is_empty() {
        return "-".to_string();
    }
    plain::table::hex(bytes)
}

/// The words of a case's text.
pub struct Words<'a>(SplitWhitespace<'a>);

impl<'a> Words<'a> {
    pub fn of(text: &'a str) -> Self {
        Words(text.split_whitespace())
    }

    pub fn next(&mut self) -> &'a str {
        self.0.next().expect("a word is missing")
    }

    pub fn number(&mut self) -> u64 {
        u64::from_str_radix(self.next(), 16).expect("a number in hexadecimal digits")
    }

    pub fn length(&mut self) -> usize {
        self.number() as usize
    }

    pub fn byte(&mut self) -> u8 {
        u8::try_from(self.number()).expect("a byte")
    }

    pub fn bytes(&mut self) -> Vec<u8> {
        bytes(self.next())
    }

    /// The bytes of each word that is left.
    pub fn all_bytes(&mut self) -> Vec<Vec<u8>> {
        self.0.by_ref().map(bytes).collect()
    }
}

fn bytes(word: &str) -> Vec<u8> {
    let digits = word.trim_start_matches('-');
    (0..digits.len())
        .step_by(2)
        .map(|i| u8::from_str_radix(&digits[i..i + 2], 16).expect("hexadecimal digits"))
        .collect()
}
