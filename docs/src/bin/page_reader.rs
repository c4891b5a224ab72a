//! Holds the page reader program: one frame a line on standard input, results and page on standard output.

use std::io::{self, Read, Write};

use plain::frame::{lay, read};
use plain::list::{row_length, MOST_ROWS, SCRATCH};
use plain::number::DONE;
use plain::page;
use plain::reading::read_list;
use plain::table::hex;

/// A line of odd length, over 256 characters, or with another character than a digit.
const BAD_LINE: u8 = 17;
const MOST_CHARACTERS: usize = 256;

/// What the first good frame sets.
struct Expected {
    page_number: u32,
    n: u8,
    l: u8,
}

/// What the lines so far have left.
struct Sheet {
    expected: Option<Expected>,
    rows: usize,
    list: Vec<u8>,
}

fn main() -> io::Result<()> {
    let mut input = Vec::new();
    io::stdin().read_to_end(&mut input)?;
    let mut lines: Vec<&[u8]> = input.split(|&byte| byte == b'\n').collect();
    // Nothing after a last newline is no line.
    if lines.last().is_some_and(|line| line.is_empty()) {
        lines.pop();
    }

    let mut out = io::BufWriter::new(io::stdout().lock());
    let mut sheet = Sheet {
        expected: None,
        rows: 0,
        list: vec![0; MOST_ROWS * 44],
    };
    for (i, line) in lines.into_iter().enumerate() {
        match take(line, &mut sheet) {
            (DONE, _) => writeln!(out, "{} row", i + 1)?,
            (number, place) => writeln!(out, "{} refused {number} at {place}", i + 1)?,
        }
    }
    report(&sheet, &mut out)?;
    out.flush()
}

/// The number and place of a line's result, 0 and 0 when its row was laid.
fn take(line: &[u8], sheet: &mut Sheet) -> (u8, usize) {
    let Some(frame) = unhex(line) else {
        return (BAD_LINE, 0);
    };
    let reading = read(&frame);
    if reading.number != DONE {
        return (reading.number, reading.place);
    }
    let expected = sheet.expected.get_or_insert(Expected {
        page_number: reading.page_number,
        n: reading.n,
        l: reading.l,
    });
    let (page_number, n, l) = (expected.page_number, expected.n, expected.l);
    let result = lay(&frame, page_number, n, l, sheet.rows, &mut sheet.list);
    if result.0 == DONE {
        sheet.rows += 1;
    }
    result
}

/// The bytes of a line, or None when it is bad.
fn unhex(line: &[u8]) -> Option<Vec<u8>> {
    if line.len() % 2 != 0 || line.len() > MOST_CHARACTERS {
        return None;
    }
    let digit = |&byte: &u8| char::from(byte).to_digit(16);
    let digits: Vec<u32> = line.iter().map(digit).collect::<Option<_>>()?;
    let byte = |pair: &[u32]| (16 * pair[0] + pair[1]) as u8;
    Some(digits.chunks(2).map(byte).collect())
}

/// The lines after the last result: the page line and under answer 0 the page, or `no page`.
fn report(sheet: &Sheet, out: &mut impl Write) -> io::Result<()> {
    let Some(Expected { page_number, n, l }) = sheet.expected else {
        return writeln!(out, "no page");
    };
    let rows = sheet.rows;
    let list = &sheet.list[..rows * row_length(l)];
    let mut page = vec![0; page::length(n, l)];
    let answer = read_list(
        n,
        l,
        list,
        &mut page,
        &mut vec![0; rows],
        &mut vec![0; rows],
        &mut vec![0; SCRATCH],
    );
    writeln!(
        out,
        "page {page_number} symbols {n} bytes {l} rows {rows} kept {} answer {} agree {}",
        answer.rank, answer.number, answer.agreement
    )?;
    if answer.number == DONE {
        writeln!(out, "{}", hex(&page))?;
    }
    Ok(())
}
