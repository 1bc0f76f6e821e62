//! Spoilt tables and records: nothing panics, refusals come in order and change nothing.

mod common;

use common::slow::{answer, held_if_well_formed};
use common::{lone_entry, next_box, next_gust, put_page, record_entry, Book, Rng, STYLES};
use second::{clear, count, image_length, save, GustBox, Refusal, SmallRecord, LIMITS};

/// Fresh books to be spoilt, of all styles.
fn books(rng: &mut Rng) -> Vec<Book> {
    let mut all = vec![];
    for style in STYLES {
        let mut book = Book::new(50);
        let mut earlier = vec![];
        for _ in 0..400 {
            let ends = next_box(rng, style, &earlier);
            let gust = next_gust(rng, 4, earlier.len());
            if book.record(ends, gust).is_ok() {
                earlier.push((ends, gust));
            }
        }
        all.push(book);
    }
    all
}

fn spoil(rng: &mut Rng, book: &mut Book) {
    for _ in 0..1 + rng.below(4) {
        let page = 170 * rng.below(50) as usize;
        let place = 2 + 21 * rng.below(8) as usize;
        match rng.below(8) {
            0 => book.table[page] = rng.below(5) as u16,
            1 => book.table[page + 1] = rng.below(11) as u16,
            2 => book.table[page + place + 8] = rng.below(52) as u16,
            3 => book.table[page + place + rng.below(21) as usize] = rng.next() as u16,
            4 => book.table[page + place + 6] = rng.next() as u16,
            5 => book.table[page + rng.below(170) as usize] = 0,
            6 => book.small = spoilt_record(rng, book.small),
            _ => {
                // A strongest box out of the way lets more pages be opened.
                book.table[page + place + 9..page + place + 15].fill(4_000);
            }
        }
    }
}

fn spoilt_record(rng: &mut Rng, mut small: SmallRecord) -> SmallRecord {
    let any = match rng.below(3) {
        0 => rng.below(6),
        1 => rng.next() as u32,
        _ => 65_536 + rng.below(4),
    };
    match rng.below(5) {
        0 => small.root = any,
        1 => small.height = any,
        2 => small.accepted = any,
        3 => small.struck = any,
        _ => small.covered = any,
    }
    small
}

#[test]
fn answers_on_spoilt_books_follow_the_words() {
    let mut rng = Rng::new(17);
    let books = books(&mut rng);
    let (mut answered, mut refused) = (0, 0);
    for round in 0..60_000 {
        let mut book = books[round % books.len()].clone();
        spoil(&mut rng, &mut book);
        let mut question = next_box(&mut rng, STYLES[round % books.len()], &[]);
        if rng.one_in(4) {
            // Nearly all ground, but not where strongest boxes were moved to.
            question = [0, 3_999, 0, 3_999, 0, 3_999];
        }
        let expected = answer(&book.table, &book.small, GustBox::from(question));
        match book.ask(question) {
            Ok(got) => {
                let gust = got.gust.map_or(-1, i64::from);
                assert_eq!(expected, Some((gust, got.pages as usize)));
                answered += 1;
            }
            Err(refusal) => {
                assert_eq!((refusal, expected), (Refusal::Damaged, None));
                refused += 1;
            }
        }
    }
    println!("answered {answered} refused {refused}");
    assert!(answered > 5_000 && refused > 5_000);
}

/// The refusal that recording must give before it looks at the free pages.
fn expected_refusal(book: &Book, ends: [u32; 6], gust: u32) -> Option<Refusal> {
    let bad =
        |axis: usize| ends[2 * axis] > ends[2 * axis + 1] || ends[2 * axis + 1] > LIMITS[axis];
    if (0..3).any(bad) {
        return Some(Refusal::Box);
    }
    if gust > 1_200 {
        return Some(Refusal::Gust);
    }
    let damaged = held_if_well_formed(&book.table, &book.small).is_none();
    let spent = book.small.accepted == 1_000_000;
    match (damaged, spent) {
        (true, _) => Some(Refusal::Damaged),
        (false, true) => Some(Refusal::Spent),
        _ => None,
    }
}

/// A book left alone, spent, or spoilt.
fn some_book(rng: &mut Rng, books: &[Book], round: usize) -> Book {
    let mut book = books[round % books.len()].clone();
    match rng.below(4) {
        0 => {}
        1 => {
            let past = 1_000_000 - book.small.accepted;
            book.small.accepted += past;
            book.small.covered += past;
        }
        _ => spoil(rng, &mut book),
    }
    book
}

#[test]
fn refusals_leave_everything_as_it_was() {
    let mut rng = Rng::new(23);
    let books = books(&mut rng);
    let mut seen = [0; 10];
    for round in 0..30_000 {
        let mut book = some_book(&mut rng, &books, round);
        let mut ends = next_box(&mut rng, STYLES[round % books.len()], &[]);
        if rng.one_in(6) {
            ends[rng.below(6) as usize] = [rng.below(60_000), rng.next() as u32][round % 2];
        }
        let gust = [700, 700, 1_200, 1_201, 65_536 + 700][rng.below(5) as usize];
        let before = book.clone();
        let expected = expected_refusal(&book, ends, gust);
        match book.record(ends, gust) {
            Ok(_) => {
                assert_eq!(expected, None);
                assert!(book.held().is_some());
            }
            Err(refusal) => {
                assert_eq!(refusal, expected.unwrap_or(Refusal::Full));
                assert!(book == before, "{refusal:?} changed the book");
                seen[usize::from(refusal.number())] += 1;
            }
        }
    }
    println!("refusals by number {seen:?}");
    for number in [2, 3, 4, 5, 6] {
        assert!(seen[number] > 100, "refusal {number}");
    }
}

#[test]
fn counting_and_saving_agree_with_the_check() {
    let mut rng = Rng::new(29);
    let books = books(&mut rng);
    for round in 0..20_000 {
        let mut book = books[round % books.len()].clone();
        spoil(&mut rng, &mut book);
        let held = held_if_well_formed(&book.table, &book.small);
        let counts = count(&book.table, &book.small);
        assert_eq!(counts.map(|counts| u64::from(counts.held)).ok(), held);
        let mut image = vec![0xEE; image_length(50)];
        let saved = save(&book.table, &book.small, &mut image);
        match held {
            Some(_) => assert_eq!(saved, Ok(())),
            None => {
                assert_eq!(saved, Err(Refusal::Damaged));
                assert!(image.iter().all(|&byte| byte == 0xEE));
            }
        }
    }
}

#[test]
fn a_table_that_fits_no_pages_comes_first() {
    let wrong = SmallRecord {
        root: 70_000,
        height: 0,
        accepted: u32::MAX,
        struck: 1,
        covered: 1,
    };
    for length in [0, 1, 169, 171, 4_096 * 170 + 1, 4_097 * 170] {
        let mut book = Book::new(1);
        book.table = vec![5; length];
        book.small = wrong;
        let before = book.clone();
        let bad = [9, 0, 0, 0, 0, 0];
        assert_eq!(book.record(bad, 5_000), Err(Refusal::Table));
        assert_eq!(book.record_sound(bad, 5_000), Err(Refusal::Table));
        assert_eq!(book.ask(bad), Err(Refusal::Table));
        assert_eq!(count(&book.table, &book.small), Err(Refusal::Table));
        assert_eq!(save(&book.table, &book.small, &mut []), Err(Refusal::Table));
        assert_eq!(clear(&mut book.table, &mut book.small), Err(Refusal::Table));
        assert!(book == before);
    }
    let mut book = Book::new(4_096);
    book.table.fill(5);
    book.small = wrong;
    assert_eq!(clear(&mut book.table, &mut book.small), Ok(()));
    assert!(book == Book::new(4_096));
}

#[test]
fn asking_looks_at_the_box_before_the_book() {
    let mut book = Book::new(3);
    book.small.root = 3;
    assert_eq!(book.ask([1, 0, 0, 0, 0, 0]), Err(Refusal::Box));
    assert_eq!(book.ask([0; 6]), Err(Refusal::Damaged));
    book.small.root = 0;
    book.small.height = 0;
    book.table[0] = 0;
    assert_eq!(book.ask([0; 6]), Err(Refusal::Damaged));
    book.small.height = 65_537;
    book.table[0] = 1;
    assert_eq!(book.ask([0; 6]), Err(Refusal::Damaged));
    book.small.height = 1;
    assert_eq!(book.ask([0; 6]).unwrap().pages, 1);
    book.table[1] = 9;
    assert_eq!(book.ask([0; 6]), Err(Refusal::Damaged));
    // An index root may not stand empty; one entry is enough to ask.
    book.small.height = 2;
    book.table[..2].copy_from_slice(&[2, 0]);
    assert_eq!(book.ask([0; 6]), Err(Refusal::Damaged));
    book.table[1] = 1;
    assert_eq!(book.ask([1; 6]).unwrap().pages, 1);
}

#[test]
fn counts_of_a_spoilt_record_may_be_asked_over() {
    let mut book = Book::new(3);
    book.record([0; 6], 8).unwrap();
    book.small.accepted = u32::MAX;
    assert_eq!(book.ask([0; 6]).unwrap().gust, Some(8));
    assert_eq!(book.record([0; 6], 8), Err(Refusal::Damaged));
}

/// One page may be opened again and again, until as many are opened as there are.
#[test]
fn as_many_pages_are_opened_as_there_are() {
    for (entries, opened) in [(1, Some(2)), (2, Some(3)), (3, None)] {
        let mut book = Book::new(3);
        let mut entry = lone_entry([0, 9, 0, 9, 0, 9], 5, 1);
        entry[9..15].fill(0);
        put_page(&mut book.table, 0, 2, &vec![entry; entries]);
        put_page(&mut book.table, 1, 1, &[record_entry([0; 6], 5)]);
        book.small.height = 2;
        let answer = book.ask([5; 6]);
        assert_eq!(answer.map(|answer| answer.pages).ok(), opened);
        let slow = answer_of(&book, [5; 6]);
        assert_eq!(slow.map(|(_, pages)| pages), opened);
    }
}

fn answer_of(book: &Book, question: [u32; 6]) -> Option<(i64, u32)> {
    let (gust, pages) = answer(&book.table, &book.small, GustBox::from(question))?;
    Some((gust, pages as u32))
}
