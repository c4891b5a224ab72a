//! Keeps a scan in a file. `keep_scan FILE` reads frames from standard input, one a line in
//! hexadecimal digits, goes on with the scan in the file, if there is one, and saves it there after
//! each frame that gives a row.
//!
//! What is saved is the scan's store, 65,536 plain bytes. That a store says what a fresh reading of
//! its rows says is proved for stores that were made by opening and offering; the example looks
//! whether it is so. Of a file that was changed since, less is promised. `Scan::resume` goes on with
//! it only if its bytes are those which opening and offering its rows give: then it is a store, but
//! perhaps of other rows than were saved, or of another page number, which bytes alone can't tell.
//! An app that wants to know keeps a checksum beside it. Whoever asks the bytes of a file without
//! `Scan::resume` gets an answer, and it may be wrong.

use std::error::Error;
use std::io::{stdin, ErrorKind};
use std::process::ExitCode;
use std::{env, fs};

use mekorvat::{ask, read_list, stored, Scan, Stored, SCRATCH_BYTES};

fn main() -> ExitCode {
    match keep() {
        Ok(()) => ExitCode::SUCCESS,
        Err(error) => {
            eprintln!("{error}");
            ExitCode::FAILURE
        }
    }
}

fn keep() -> Result<(), Box<dyn Error>> {
    let file = env::args().nth(1).ok_or("keep_scan FILE < FRAMES")?;
    let mut scan = open_scan(&file)?;
    for line in stdin().lines() {
        let rows = scan.rows();
        if let Err(refusal) = scan.offer(&bytes_of(&line?)) {
            eprintln!("{refusal}");
        }
        if scan.rows() > rows {
            save(&scan, &file)?;
        }
    }
    print(&mut scan);
    if scan.rows() > 0 {
        compare(&fs::read(&file)?)?;
    }
    Ok(())
}

/// The scan in the file, or a new one where there is no file.
fn open_scan(file: &str) -> Result<Scan, Box<dyn Error>> {
    match fs::read(file) {
        Ok(store) => {
            let refused = |refusal| format!("{refusal}; nothing that it says can be relied on");
            let scan = Scan::resume(&store).map_err(refused)?;
            println!("going on with a scan of {} frames", scan.rows());
            Ok(scan)
        }
        Err(error) if error.kind() == ErrorKind::NotFound => {
            println!("a new scan");
            Ok(Scan::new())
        }
        Err(error) => Err(error.into()),
    }
}

/// Beside the file first: a phone that goes off while it writes leaves the old one whole.
fn save(scan: &Scan, file: &str) -> Result<(), Box<dyn Error>> {
    let store = scan.store().ok_or("no page is known yet")?;
    let beside = format!("{file}.new");
    fs::write(&beside, store)?;
    fs::rename(&beside, file)?;
    Ok(())
}

fn print(scan: &mut Scan) {
    match scan.read() {
        Ok(page) => {
            println!("{}", page.bytes.escape_ascii());
            let confirmed = if page.confirmed {
                "confirmed"
            } else {
                "not confirmed: scan on"
            };
            let (agreement, rows) = (page.agreement, page.rows);
            println!("{agreement} of {rows} frames agree; {confirmed}");
        }
        Err(next) => println!("{next}"),
    }
}

/// Asks the store in the file, and reads its rows as a list: answer, page and marks.
fn compare(store: &[u8]) -> Result<(), Box<dyn Error>> {
    let Stored { id, list } = stored(store)?;
    let rows = list.len() / id.row_bytes();
    let lend = || {
        (
            vec![0; id.page_bytes()],
            vec![0; 2 * rows],
            vec![0; rows],
            vec![0; SCRATCH_BYTES],
        )
    };
    let (mut page, mut uses, mut roles, mut scratch) = lend();
    let asked = ask(store, &mut page, &mut uses, &mut roles, &mut scratch)?;
    let asked = (asked.answer, page, uses, roles);

    let (mut page, mut uses, mut roles, mut scratch) = lend();
    let (n, l) = (id.n, id.l);
    let answer = read_list(n, l, list, &mut page, &mut uses, &mut roles, &mut scratch);
    if asked != (answer, page, uses, roles) {
        return Err("the store does not say what its rows say: scan again".into());
    }
    println!("in the file: {rows} rows, and asking says what a fresh reading of them says");
    Ok(())
}

/// The bytes before the first pair of characters that is not one of digits.
fn bytes_of(line: &str) -> Vec<u8> {
    let digit = |&character: &u8| char::from(character).to_digit(16);
    let byte = |pair: &[u8]| Some((digit(&pair[0])? * 16 + digit(&pair[1])?) as u8);
    line.as_bytes().chunks_exact(2).map_while(byte).collect()
}
