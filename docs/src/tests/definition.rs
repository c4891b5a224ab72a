//! Holds a third reading, for tiny lists, that tries all sets, picks and pages of document 01, with
//! wish 3's repeats.

use super::*;

/// Constraint and payload, the latter of two bits so that all pages can be tried.
type Sum = (u64, u8);

/// The items whose places are the ones of `set`.
fn members<T: Copy>(set: usize, items: &[T]) -> Vec<T> {
    let places = (0..items.len()).filter(|place| set >> place & 1 == 1);
    places.map(|place| items[place]).collect()
}

fn sum_of_rows(rows: Vec<Sum>) -> Sum {
    let add = |sum: Sum, row: Sum| (sum.0 ^ row.0, sum.1 ^ row.1);
    rows.into_iter().fold((0, 0), add)
}

fn sum_of_symbols(constraint: u64, page: &[u8]) -> u8 {
    let named = members(constraint as usize, page);
    named.into_iter().fold(0, |sum, symbol| sum ^ symbol)
}

/// Answer, page, uses and roles.
type Outcome = (Answer, Vec<u8>, Vec<u16>, Vec<u8>);

/// "A row equal to an earlier list row in seed, constraint and payload adds to no uses and no
/// agreement. Kept rows don't change."
fn by_definition(n: usize, list: &[Row]) -> Outcome {
    let repeats = |arrival: usize| (0..arrival).any(|earlier| list[earlier] == list[arrival]);
    let rows: Vec<Sum> = list.iter().map(|&(_, c, p)| (c, p)).collect();
    let mut kept: Vec<usize> = Vec::new();
    let mut sets: Vec<usize> = Vec::new();
    for (arrival, &row) in rows.iter().enumerate() {
        let kept_rows: Vec<Sum> = kept.iter().map(|&k| rows[k]).collect();
        let sums_to_row = |&set: &usize| sum_of_rows(members(set, &kept_rows)) == row;
        match (0..1 << kept.len()).find(sums_to_row) {
            Some(_) if repeats(arrival) => (),
            Some(set) => sets.push(set),
            None => kept.push(arrival),
        }
    }
    let rank = kept.len();
    let mut uses = vec![65_535; rows.len()];
    let mut roles = vec![0; rows.len()];
    for (place, &arrival) in kept.iter().enumerate() {
        uses[arrival] = sets.iter().filter(|&&set| set >> place & 1 == 1).count() as u16;
        roles[arrival] = 1;
    }

    let least_inside = |pick| members(pick, &kept).into_iter().map(|k| uses[k]).min();
    let most_outside = |pick: usize| members(!pick, &kept).into_iter().map(|k| uses[k]).max();
    let stands_out = |&pick: &usize| rank == n || least_inside(pick) > most_outside(pick);
    let of_size = (0usize..1 << rank).filter(|pick| pick.count_ones() as usize == n);
    let picks: Vec<usize> = of_size.filter(stands_out).collect();
    let answer = |number| Answer::without_page(number, rank);
    if rank < n {
        return (answer(FEW), vec![], uses, roles);
    }
    let &[pick] = &picks[..] else {
        return (answer(TIE), vec![], uses, roles);
    };
    let picked = members(pick, &kept);
    for &arrival in &picked {
        roles[arrival] = 2;
    }

    let symbol = |page: usize, k: usize| (page >> (2 * k) & 3) as u8;
    let all = (0usize..1 << (2 * n)).map(|page| (0..n).map(|k| symbol(page, k)).collect());
    let agrees = |row: Sum, page: &[u8]| sum_of_symbols(row.0, page) == row.1;
    let fits = |page: &Vec<u8>| picked.iter().all(|&k| agrees(rows[k], page));
    let pages: Vec<Vec<u8>> = all.filter(fits).collect();
    let [page] = &pages[..] else {
        return (answer(SINGULAR), vec![], uses, roles);
    };
    let counts = |&arrival: &usize| !repeats(arrival) && agrees(rows[arrival], page);
    let agreement = (0..rows.len()).filter(counts).count();
    let mut found = answer(DONE);
    found.agreement = agreement;
    (found, page.clone(), uses, roles)
}

#[test]
fn tiny_lists() {
    let mut rng = Rng(5);
    let mut seen = [0; 8];
    let mut with_repeats = 0;
    for _ in 0..4_000 {
        let n = 1 + rng.below(3);
        let seeds = [1, 3, 1_000][rng.below(3)];
        // Mostly rows of one page, so that answer 0 is frequent.
        let page = rng.bytes(n);
        let row = |rng: &mut Rng| {
            let constraint = rng.below(1 << n) as u64;
            let right = sum_of_symbols(constraint, &page);
            let wrong = rng.draw() as u8;
            let payload = if rng.below(4) == 0 { wrong } else { right };
            // So few seeds that rows are often equal in them, and in the rest, or not.
            (rng.below(seeds) as u32, constraint, payload & 3)
        };
        let m = rng.below(12);
        let rows: Vec<Row> = (0..m).map(|_| row(&mut rng)).collect();
        let (answer, page, uses, roles) = by_definition(n, &rows);

        let before = Lent::noise(&mut rng, n as u8, 1, m);
        let mut lent = before.clone();
        let read = lent.read(n as u8, 1, &list_of(&rows));
        assert_eq!(read, answer, "{n} {rows:?}");
        assert_eq!(lent.page[..page.len()], page);
        assert_eq!(lent.uses[..m], uses);
        assert_eq!(lent.roles[..m], roles);
        lent.assert_rest_stayed(&before, answer.number, n, m);
        seen[usize::from(answer.number)] += 1;
        with_repeats += usize::from((0..m).any(|i| rows[..i].contains(&rows[i])));
    }
    assert!(with_repeats > 1_000, "{with_repeats}");
    for number in [DONE, FEW, TIE, SINGULAR] {
        assert!(seen[usize::from(number)] > 50, "{seen:?}");
    }
}
