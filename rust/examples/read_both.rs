//! Reads both versions of a page from frames on standard input, one a line in hexadecimal digits.

use std::io::{self, stdin};

use mekorvat::{Other, Page, Scan};

fn main() -> io::Result<()> {
    let mut scan = Scan::new();
    for line in stdin().lines() {
        if let Err(refusal) = scan.offer(&bytes_of(&line?)) {
            eprintln!("{refusal}");
        }
    }
    let held = scan.held();
    match scan.read_both() {
        Ok(versions) => {
            print("this", versions.page);
            match versions.other {
                Other::None => println!("no frame says otherwise"),
                Other::Page(other) => print("the other", other),
                Other::Unsettled(next) => {
                    let frames = versions.page.disagreeing();
                    println!("frames that say otherwise: {frames}; {next}");
                }
            }
            if held > 0 {
                println!("frames seen again, which adds nothing: {held}");
            }
        }
        Err(next) => println!("{next}"),
    }
    Ok(())
}

/// One version, how many of its frames agree with it, and whether these confirm it.
fn print(version: &str, page: Page) {
    let text = page.bytes.escape_ascii();
    let confirmed = if page.confirmed {
        "confirmed"
    } else {
        "not confirmed: scan on"
    };
    println!(
        "{version} version: {text}; {} of {} frames agree, {confirmed}",
        page.agreement, page.rows
    );
}

/// The bytes before the first pair of characters that is not one of digits.
fn bytes_of(line: &str) -> Vec<u8> {
    let digit = |&character: &u8| char::from(character).to_digit(16);
    let byte = |pair: &[u8]| Some((digit(&pair[0])? * 16 + digit(&pair[1])?) as u8);
    line.as_bytes().chunks_exact(2).map_while(byte).collect()
}
