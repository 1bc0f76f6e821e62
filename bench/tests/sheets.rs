//! Sheets of 0 to 40 rows, answered by the static library and by the second program, on good books and spoilt ones. After every
//! sheet the number returned and every number of every row are the same, and each row says what a single question says.
use bench::twice::{five, small_record};
use bench::{book, chain, noise, question, related, Seed, DENSE, SPARSE};
use gustbook::{Refusal, Row, MOST_ROWS};
use second::PAGE_WORDS;
use std::collections::BTreeMap;

/// The most rows of a sheet here. One more stands on each side, and is not lent.
const MOST: usize = 40;
const RUNS: u64 = 2_000;

/// A book, good or spoilt, and boxes that have to do with it.
struct Book {
    table: Vec<u16>,
    small: [u32; 5],
    places: Vec<[u32; 6]>,
}

fn good(seed: &mut Seed) -> Book {
    let spread = seed.pick(&[&DENSE, &SPARSE]);
    let (pages, most) = (1 + seed.below(60) as usize, seed.below(400) as usize);
    let (table, small, accepted) = book(pages, most, spread, seed);
    let fresh = (0..8).map(|_| spread.place(seed));
    let mut places: Vec<[u32; 6]> = fresh.collect();
    places.extend(accepted.iter().map(|(place, _)| *place));
    Book {
        table,
        small: five(&small),
        places,
    }
}

/// Words near the start of a page become others, or a number of the small record does, or the table gets another length.
fn spoil(book: &mut Book, seed: &mut Seed) {
    match seed.below(10) {
        0 => book.table.truncate(book.table.len() - 1),
        1 => book.table.resize(book.table.len() + 4_096 * PAGE_WORDS, 0),
        2 => noise(&mut book.table, &mut book.small, seed),
        3 => (book.table, book.small) = chain(1 + seed.below(50) as usize),
        4 => book.small[seed.below(2) as usize] = seed.pick(&[0, 1, 2, 65_536, u32::MAX]),
        _ => {
            for _ in 0..1 + seed.below(4) {
                let pages = (book.table.len() / PAGE_WORDS) as u32;
                let at = seed.below(pages) as usize * PAGE_WORDS + seed.below(23) as usize;
                let step = seed.pick(&[1, u16::MAX, 7, 60_000]);
                book.table[at] = book.table[at].wrapping_add(step);
            }
        }
    }
}

/// A question of any kind, its numbers now and then out of range, some of them legal if they were cut to 16 bits.
fn asked(book: &Book, seed: &mut Seed) -> [u32; 6] {
    let old = seed.pick(&book.places);
    let mut place = match seed.below(3) {
        0 => related(old, seed),
        1 => old,
        _ => question(seed.pick(&[1, 1_000, 100_000, 999_000]), seed),
    };
    match seed.below(12) {
        0 => place.swap(0, 1),
        1 => place[seed.below(6) as usize] = seed.pick(&[4_096, 58_440, 65_536, u32::MAX]),
        2 => place[1] += 65_536,
        _ => {}
    }
    place
}

/// A row with anything in the places for its answer.
fn row(book: &Book, seed: &mut Seed) -> Row {
    let mut row = Row::new(asked(book, seed));
    for number in [
        &mut row.refusal,
        &mut row.any,
        &mut row.gust,
        &mut row.pages,
    ] {
        *number = seed.pick(&[0, 1, 2, 11, 0xdead_beef]);
    }
    row
}

/// The second program's sheet, as it leaves the same rows.
fn second_sheet(book: &Book, rows: &mut [Row]) -> Result<(), Refusal> {
    let small = small_record(book.small);
    // Anything stands in the places for their answers too.
    let used = |row: &Row| second::Row {
        question: row.place.into(),
        refusal: Some(second::Refusal::Line),
        gust: Some(row.gust),
        pages: row.pages,
    };
    let mut theirs: Vec<second::Row> = rows.iter().map(used).collect();
    second::ask_sheet(&book.table, &small, &mut theirs)
        .map_err(|refusal| Refusal(refusal.number().into()))?;
    for (row, said) in rows.iter_mut().zip(theirs) {
        row.refusal = said.refusal.map_or(0, |refusal| refusal.number().into());
        row.any = said.gust.is_some().into();
        row.gust = said.gust.unwrap_or(0);
        row.pages = said.pages;
    }
    Ok(())
}

/// What a row says, in a word.
fn kind(row: &Row) -> &'static str {
    match (row.refusal, row.any) {
        (0, 0) => "nothing",
        (0, _) => "gust",
        (1, _) => "refused by 1",
        (2, _) => "refused by 2",
        _ => "refused by 4",
    }
}

/// How often each answer and each pair of neighbours came up.
#[derive(Default)]
struct Seen {
    answers: BTreeMap<&'static str, u64>,
    answered_after_refused: u64,
    refused_after_answered: u64,
}

impl Seen {
    fn note(&mut self, rows: &[Row]) {
        if rows.len() > MOST_ROWS {
            return;
        }
        for row in rows {
            *self.answers.entry(kind(row)).or_default() += 1;
        }
        for pair in rows.windows(2) {
            let [before, after] = [pair[0].refusal != 0, pair[1].refusal != 0];
            self.answered_after_refused += u64::from(before && !after);
            self.refused_after_answered += u64::from(!before && after);
        }
    }
}

/// One sheet of each length on one book.
fn sheets(run: u64, seen: &mut Seen) {
    let seed = &mut Seed::of(run);
    let mut book = good(seed);
    if run % 2 == 1 {
        spoil(&mut book, seed);
    }
    for length in 0..=MOST {
        let before: Vec<Row> = (0..length + 2).map(|_| row(&book, seed)).collect();
        let (mut ours, mut theirs) = (before.clone(), before.clone());
        let lent = 1..length + 1;
        let said = gustbook::ask_sheet(&book.table, &book.small, &mut ours[lent.clone()]);
        let other = second_sheet(&book, &mut theirs[lent.clone()]);
        let what = format!("run {run}, {length} rows");
        assert_eq!(said, other, "{what}");
        assert_eq!(ours, theirs, "{what}");
        if length > MOST_ROWS {
            assert_eq!((said, &ours), (Err(Refusal(11)), &before), "{what}");
        } else {
            let single = |row: &Row| gustbook::ask(&book.table, &book.small, &row.place);
            let rows = &ours[lent.clone()];
            assert!(rows.iter().all(|row| row.answer() == single(row)), "{what}");
        }
        seen.note(&ours[lent]);
    }
}

#[test]
fn sheets_beside_the_second_program() {
    let mut seen = Seen::default();
    for run in 0..RUNS {
        sheets(run, &mut seen);
    }
    let kinds = [
        "nothing",
        "gust",
        "refused by 1",
        "refused by 2",
        "refused by 4",
    ];
    for kind in kinds {
        let times = seen.answers.get(kind).copied().unwrap_or(0);
        assert!(times > 1_000, "{kind}: only {times} rows");
    }
    assert!(seen.answered_after_refused > 1_000 && seen.refused_after_answered > 1_000);
}
