//! A sheet of questions.

use second::{ask_sheet, clear, record, GustBox, Refusal, Row, SmallRecord, MOST_ROWS, PAGE_WORDS};

/// A row that was used before.
fn row(ends: [u32; 6]) -> Row {
    Row {
        question: ends.into(),
        refusal: Some(Refusal::Damaged),
        gust: Some(99),
        pages: 99,
    }
}

const STORM: [u32; 6] = [10, 19, 10, 19, 0, 9];

fn book() -> (Vec<u16>, SmallRecord) {
    let mut table = vec![0; 3 * PAGE_WORDS];
    let mut small = SmallRecord::EMPTY;
    clear(&mut table, &mut small).unwrap();
    record(&mut table, &mut small, GustBox::from(STORM), 250).unwrap();
    (table, small)
}

#[test]
fn each_row_by_itself() {
    let (table, small) = book();
    let mut rows = [STORM, [5, 4, 0, 0, 0, 0], [20, 25, 0, 9, 0, 9]].map(row);
    ask_sheet(&table, &small, &mut rows).unwrap();
    let said = rows.map(|row| (row.refusal, row.gust, row.pages));
    let refused = (Some(Refusal::Box), None, 0);
    assert_eq!(said, [(None, Some(250), 1), refused, (None, None, 1)]);
}

#[test]
fn a_sheet_that_is_too_long() {
    let (table, small) = book();
    let mut rows = [row(STORM); MOST_ROWS + 1];
    assert_eq!(
        ask_sheet(&table[1..], &small, &mut rows),
        Err(Refusal::Sheet)
    );
    assert_eq!(rows, [row(STORM); MOST_ROWS + 1]);
    assert_eq!(ask_sheet(&table, &small, &mut rows[1..]), Ok(()));
    assert!(rows[1..].iter().all(|row| row.gust == Some(250)));
}

#[test]
fn a_table_that_is_none() {
    let (table, small) = book();
    let mut rows = [row(STORM); 2];
    assert_eq!(ask_sheet(&table[1..], &small, &mut rows), Ok(()));
    assert!(rows
        .iter()
        .all(|row| row.refusal == Some(Refusal::Table) && row.pages == 0));
}
