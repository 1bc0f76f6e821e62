//! Every word of random books against the plain tree, record by record.

mod common;

use common::model::Model;
use common::{next_box, next_gust, Book, Rng, Style, SPREADS, STYLES};
use second::{Event, Refusal, Tally, Verdict};

/// A book, the same book recorded without checks, and the plain tree, in step.
struct Trio {
    book: Book,
    unchecked: Book,
    model: Model,
    tally: Tally,
    covered_with_strikes: u64,
}

impl Trio {
    fn new(pages: usize) -> Self {
        Trio {
            book: Book::new(pages),
            unchecked: Book::new(pages),
            model: Model::new(pages),
            tally: Tally::default(),
            covered_with_strikes: 0,
        }
    }

    /// All must agree on the answer and on every word; false once the book is full.
    fn record(&mut self, ends: [u32; 6], gust: u32) -> bool {
        let recorded = self.book.record_noting(ends, gust, &mut self.tally);
        assert_eq!(self.unchecked.record_sound(ends, gust), recorded);
        let Some(expected) = self.model.record(ends, gust) else {
            assert_eq!(recorded, Err(Refusal::Full));
            return false;
        };
        let recorded = recorded.unwrap();
        assert_eq!((recorded.verdict, recorded.struck), expected);
        let both = recorded.verdict == Verdict::Covered && recorded.struck > 0;
        self.covered_with_strikes += u64::from(both);
        assert_eq!(self.book.small, self.model.small());
        assert!(self.book.table == self.model.table(), "pages differ");
        assert!(self.book == self.unchecked, "the check changed the walk");
        true
    }
}

/// Fills a book in step with the plain tree, and asks both.
fn follow(seed: u64, pages: usize, style: Style, spread: u32, records: usize) -> Trio {
    let mut rng = Rng::new(seed);
    let mut trio = Trio::new(pages);
    let mut earlier = vec![];
    while earlier.len() < records {
        let ends = next_box(&mut rng, style, &earlier);
        let gust = next_gust(&mut rng, spread, earlier.len());
        if !trio.record(ends, gust) {
            break;
        }
        earlier.push((ends, gust));
        let question = next_box(&mut rng, style, &earlier);
        let answer = trio.book.ask(question).unwrap();
        assert_eq!((answer.gust, answer.pages), trio.model.ask(question));
    }
    trio
}

#[test]
fn small_books_follow_the_rules() {
    let mut total = [0; Event::ALL.len()];
    let mut covered_with_strikes = 0;
    for seed in 0..480 {
        let style = STYLES[seed as usize % STYLES.len()];
        let spread = (seed / 48 % SPREADS) as u32;
        let pages = [3, 5, 9, 16, 30, 48][seed as usize / 8 % 6];
        let seen = follow(seed, pages, style, spread, 160);
        for (sum, event) in total.iter_mut().zip(Event::ALL) {
            *sum += seen.tally.times(event);
        }
        covered_with_strikes += seen.covered_with_strikes;
    }
    println!("covered with strikes {covered_with_strikes}");
    assert!(covered_with_strikes > 0);
    for (times, event) in total.into_iter().zip(Event::ALL) {
        println!("{event:?} {times}");
        assert!(times != 0, "{event:?}");
    }
}

#[test]
fn larger_books_follow_the_rules() {
    for (seed, style) in STYLES.into_iter().enumerate() {
        follow(1_000 + seed as u64, 400, style, 3, 700);
    }
}

#[test]
fn swept_books_lose_pages_and_roots() {
    let (mut collapsed, mut emptied, mut subtrees) = (0, 0, 0);
    for seed in 0..200 {
        let style = [Style::Regions, Style::Sweeps][seed as usize % 2];
        let seen = follow(3_000 + seed, 60, style, (seed % SPREADS) as u32, 250);
        collapsed += seen.tally.times(Event::RootCollapsed);
        emptied += seen.tally.times(Event::RootEmptied);
        subtrees += seen.tally.times(Event::StruckSubtree);
    }
    println!("collapsed {collapsed} emptied {emptied} subtrees {subtrees}");
    assert!(collapsed > 50 && emptied > 20 && subtrees > 500);
}
