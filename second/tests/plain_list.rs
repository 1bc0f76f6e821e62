//! Random books against one plain pass over everything that was accepted.

mod common;

use common::{next_box, next_gust, plain_answer, Book, Rng, Style, SPREADS, STYLES};
use second::{count, load, Event, Refusal, SmallRecord, Tally, Verdict};

fn check_image(book: &Book) {
    let image = book.image();
    let mut again = Book {
        table: vec![0xFFFF; book.table.len()],
        small: SmallRecord {
            root: 9,
            height: 9,
            ..SmallRecord::EMPTY
        },
    };
    load(&image, &mut again.table, &mut again.small).unwrap();
    assert!(again == *book, "loaded is saved");
    assert_eq!(again.image(), image);
}

fn check_counts(book: &Book, before: u32, verdict: Verdict, struck: u32) -> u32 {
    let counts = count(&book.table, &book.small).unwrap();
    assert_eq!(
        counts.held + counts.struck + counts.covered,
        counts.accepted
    );
    let added = u32::from(verdict != Verdict::Covered);
    assert_eq!(counts.held + struck, before + added);
    counts.held
}

fn fill(seed: u64, pages: usize, style: Style, spread: u32, records: usize) -> Tally {
    let mut rng = Rng::new(seed);
    let mut tally = Tally::default();
    let mut book = Book::new(pages);
    let mut accepted = vec![];
    let mut held = 0;
    while accepted.len() < records {
        let ends = next_box(&mut rng, style, &accepted);
        let gust = next_gust(&mut rng, spread, accepted.len());
        let before = book.clone();
        match book.record_noting(ends, gust, &mut tally) {
            Ok(recorded) => {
                accepted.push((ends, gust));
                held = check_counts(&book, held, recorded.verdict, recorded.struck);
            }
            Err(refusal) => {
                assert_eq!(refusal, Refusal::Full);
                assert!(book == before, "a refusal changes nothing");
                break;
            }
        }
        for _ in 0..6 {
            let question = next_box(&mut rng, style, &accepted);
            let answer = book.ask(question).unwrap();
            assert_eq!(answer.gust, plain_answer(&accepted, question));
            assert!((1..=pages as u32).contains(&answer.pages));
        }
    }
    check_image(&book);
    tally
}

#[test]
fn answers_are_those_of_the_plain_list() {
    let mut total = [0; Event::ALL.len()];
    for seed in 0..480 {
        let style = STYLES[seed as usize % STYLES.len()];
        let spread = (seed / 8 % SPREADS) as u32;
        let pages = [4, 12, 60, 200][seed as usize / 40 % 4];
        let tally = fill(7_000 + seed, pages, style, spread, 400);
        for (sum, event) in total.iter_mut().zip(Event::ALL) {
            *sum += tally.times(event);
        }
    }
    for (times, event) in total.into_iter().zip(Event::ALL) {
        println!("{event:?} {times}");
        assert!(times != 0, "{event:?}");
    }
}

#[test]
fn every_record_of_a_book_saves_and_loads() {
    let mut rng = Rng::new(5);
    let mut book = Book::new(80);
    let mut accepted = vec![];
    for _ in 0..300 {
        let ends = next_box(&mut rng, Style::Mixed, &accepted);
        if book.record(ends, rng.below(6)).is_ok() {
            accepted.push((ends, 0));
        }
        check_image(&book);
    }
    assert!(accepted.len() > 200);
}

/// Records until the book is full.
fn fill_up(rng: &mut Rng, book: &mut Book, tally: &mut Tally) -> Vec<([u32; 6], u32)> {
    let mut accepted = vec![];
    loop {
        let ends = next_box(rng, Style::Sparse, &accepted);
        let gust = rng.below(1_201);
        let (table, small) = (&mut book.table, &mut book.small);
        match second::record_sound_noting(table, small, ends.into(), gust, tally) {
            Ok(_) => accepted.push((ends, gust)),
            Err(refusal) => {
                assert_eq!(refusal, Refusal::Full);
                return accepted;
            }
        }
        if accepted.len() % 500 == 0 {
            assert!(book.held().is_some());
        }
    }
}

#[test]
fn the_largest_table_fills_up() {
    let mut rng = Rng::new(99);
    let mut tally = Tally::default();
    let mut book = Book::new(4_096);
    let accepted = fill_up(&mut rng, &mut book, &mut tally);
    let sound = second::well_formed(&book.table, &book.small).unwrap();
    assert!(sound.free <= book.small.height && book.small.height >= 5);
    assert!(tally.times(Event::SplitIndex) > 300 && accepted.len() > 12_000);
    for _ in 0..2_000 {
        let mut question = next_box(&mut rng, Style::Sparse, &accepted);
        if rng.one_in(2) {
            // A corner of a record is sure to find something.
            let (ends, _) = accepted[rng.below(accepted.len() as u32) as usize];
            question = [ends[0], ends[0], ends[2], ends[2], ends[4], ends[4]];
        }
        let answer = book.ask(question).unwrap();
        assert_eq!(answer.gust, plain_answer(&accepted, question));
    }
    check_image(&book);
}
