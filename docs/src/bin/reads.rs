//! Holds the program that prints readings: K1 to K12, rows that repeat others or almost do, and the edges.

use plain::list::row_length;
use plain::reading::read_list;

/// n, and the constraint and payload of each row; its seed is its arrival number.
const WORKED: [(u8, &[(u8, u8)]); 12] = [
    (1, &[]),
    (1, &[(1, 7)]),
    (1, &[(1, 7), (1, 9)]),
    (1, &[(1, 7), (1, 9), (1, 9)]),
    (1, &[(0, 7)]),
    (1, &[(1, 7), (0, 0)]),
    (2, &[(3, 1), (1, 3), (3, 2), (2, 1), (1, 0)]),
    (2, &[(1, 3), (2, 1), (3, 1), (3, 2), (1, 0)]),
    (2, &[(3, 13), (1, 6), (3, 14), (2, 8), (1, 5)]),
    (1, &[(2, 7)]),
    (2, &[(1, 4), (1, 5)]),
    (2, &[(1, 4)]),
];

/// Seed, constraint and payload of a row.
type Row = (u8, u8, u8);

const REPEATS: [(u8, &[Row]); 6] = [
    // K4 with equal seeds on its second and third rows.
    (1, &[(0, 1, 7), (1, 1, 9), (1, 1, 9)]),
    // Equal seeds, but other payloads.
    (1, &[(0, 1, 7), (0, 1, 9), (1, 1, 9)]),
    // Equal seeds and payloads, but other constraints.
    (2, &[(0, 1, 4), (0, 2, 4), (0, 3, 4), (0, 1, 4), (1, 1, 4)]),
    // Equal but for the seeds.
    (1, &[(0, 1, 7), (1, 1, 7), (2, 1, 7), (3, 1, 9), (4, 1, 9)]),
    // One row held, against two.
    (1, &[(0, 1, 7), (0, 1, 7), (0, 1, 7), (1, 1, 9), (2, 1, 9)]),
    // Repeats of rows that are not kept, with others between.
    (1, &[(0, 1, 7), (1, 1, 7), (2, 0, 0), (1, 1, 7), (2, 0, 0)]),
];

/// More rows than any list has: none repeats another.
const NEVER: usize = 1_024;

/// How much is lent of each buffer.
#[derive(Clone, Copy)]
struct Rooms {
    page: usize,
    uses: usize,
    roles: usize,
    scratch: usize,
}

fn main() {
    for (n, pairs) in WORKED {
        let numbered = (0..).zip(pairs);
        let rows: Vec<Row> = numbered.map(|(i, &(c, p))| (i, c, p)).collect();
        print_case(n, &rows);
    }
    for (n, rows) in REPEATS {
        print_case(n, rows);
    }

    let exact = rooms(2_048, 64, 64, 32_768);
    for n in [64, 65, 0, 63] {
        print_reading(n, 32, &units(32, NEVER, 2_816), exact);
    }
    print_reading(64, 33, &units(33, NEVER, 2_816), exact);
    print_reading(64, 1, &units(1, NEVER, 6_656), rooms(64, 512, 512, 32_768));
    print_reading(64, 1, &units(1, NEVER, 6_669), rooms(64, 513, 513, 32_768));
    print_reading(64, 32, &units(32, NEVER, 2_815), exact);
    // 256 rows shown twice, and 17 shown thirty times.
    print_reading(64, 1, &units(1, 256, 6_656), rooms(64, 512, 512, 32_768));
    print_reading(17, 1, &units(1, 17, 6_630), rooms(17, 510, 510, 32_768));

    let list = units(32, NEVER, 2_816);
    print_reading(
        64,
        32,
        &list,
        Rooms {
            page: 2_047,
            ..exact
        },
    );
    print_reading(64, 32, &list, Rooms { uses: 63, ..exact });
    print_reading(64, 32, &list, Rooms { roles: 63, ..exact });
    print_reading(
        64,
        32,
        &list,
        Rooms {
            scratch: 32_767,
            ..exact
        },
    );
}

fn rooms(page: usize, uses: usize, roles: usize, scratch: usize) -> Rooms {
    Rooms {
        page,
        uses,
        roles,
        scratch,
    }
}

/// A worked case, with a byte and a mark more than it needs of each room.
fn print_case(n: u8, rows: &[Row]) {
    let list: Vec<u8> = rows
        .iter()
        .flat_map(|&(seed, constraint, payload)| row(seed.into(), constraint.into(), 1, payload))
        .collect();
    let marks = rows.len() + 1;
    print_reading(n, 1, &list, rooms(usize::from(n) + 1, marks, marks, 32_769));
}

/// A row whose payload is zero but for its last byte.
fn row(seed: u32, constraint: u64, l: usize, last: u8) -> Vec<u8> {
    let mut row = [&seed.to_be_bytes()[..], &constraint.to_be_bytes()].concat();
    row.resize(11 + l, 0);
    row.push(last);
    row
}

/// Rows 0, 1, 2 and so on, again from 0 after each turn; zeros behind the last whole row.
///
/// Row i has the seed i and one symbol, symbol i modulo 64; its payload ends in i.
fn units(l: u8, turn: usize, size: usize) -> Vec<u8> {
    let rows = (0..size / row_length(l)).map(|place| place % turn);
    let mut list: Vec<u8> = rows
        .flat_map(|i| row(i as u32, 1 << (i % 64), l.into(), (i % 256) as u8))
        .collect();
    list.resize(size, 0);
    list
}

/// One line: the answer's numbers, the page room, uses, roles, and how many scratch bytes are zero and how many are not.
fn print_reading(n: u8, l: u8, list: &[u8], rooms: Rooms) {
    let mut page = vec![170; rooms.page];
    let mut uses = vec![43_690; rooms.uses];
    let mut roles = vec![170; rooms.roles];
    let mut scratch = vec![170; rooms.scratch];
    let answer = read_list(n, l, list, &mut page, &mut uses, &mut roles, &mut scratch);
    let zeros = scratch.iter().filter(|&&byte| byte == 0).count();
    println!(
        "{} {} {} {} | {}| {}| {}| {} {} ",
        answer.number,
        answer.rank,
        answer.place,
        answer.agreement,
        spaced(&page),
        spaced(&uses),
        spaced(&roles),
        zeros,
        scratch.len() - zeros
    );
}

fn spaced<T: ToString>(run: &[T]) -> String {
    run.iter().map(|x| x.to_string() + " ").collect()
}
