//! Reads a page from frames on standard input, one a line in hexadecimal digits, and says whether
//! it is confirmed.

use std::io::{self, stdin};

fn main() -> io::Result<()> {
    let mut scan = mekorvat::Scan::new();
    for line in stdin().lines() {
        if let Err(refusal) = scan.offer(&bytes_of(&line?)) {
            eprintln!("{refusal}");
        }
    }
    let held = scan.held();
    match scan.read() {
        Ok(page) => {
            println!("{}", page.bytes.escape_ascii());
            let confirmed = if page.confirmed {
                "confirmed"
            } else {
                "not confirmed: scan on"
            };
            let (agreement, rows, beyond) = (page.agreement, page.rows, page.beyond());
            println!("{agreement} of {rows} frames agree, {beyond} more than needed; {confirmed}");
            if held > 0 {
                println!("frames seen again, which adds nothing: {held}");
            }
        }
        Err(next) => println!("{next}"),
    }
    Ok(())
}

/// The bytes before the first pair of characters that is not one of digits.
fn bytes_of(line: &str) -> Vec<u8> {
    let digit = |&character: &u8| char::from(character).to_digit(16);
    let byte = |pair: &[u8]| Some((digit(&pair[0])? * 16 + digit(&pair[1])?) as u8);
    line.as_bytes().chunks_exact(2).map_while(byte).collect()
}
