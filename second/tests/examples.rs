//! The worked examples of the rules.

mod common;

use common::{lone_entry, put_page, record_entry, Book};
use second::{day_number, Answer, Counter, Recorded, Refusal, Verdict};

const TRANSCRIPT: [(&str, &str); 8] = [
    ("add 10 19 10 19 1900-01-01 1900-01-10 250", "kept struck 0"),
    ("ask 19 25 19 25 1900-01-10 1900-02-01", "gust 250 pages 1"),
    ("ask 20 25 10 19 1900-01-01 1900-01-10", "nothing pages 1"),
    ("add 10 29 10 19 1900-01-01 1900-01-10 250", "kept struck 1"),
    ("add 15 35 10 19 1900-01-01 1900-01-10 250", "cut struck 0"),
    (
        "add 12 18 12 18 1900-01-02 1900-01-03 100",
        "covered struck 0",
    ),
    ("add 5 4 0 0 1900-01-01 1900-01-01 1", "refused 2"),
    ("count", "accepted 4 held 2 struck 1 covered 1"),
];

fn kept(verdict: Verdict, struck: u32) -> Result<Recorded, Refusal> {
    Ok(Recorded { verdict, struck })
}

#[test]
fn transcript() {
    let mut counter = Counter::new();
    for (line, answer) in TRANSCRIPT {
        let mut out = vec![];
        counter.feed(line.as_bytes(), &mut out).unwrap();
        assert!(out.is_empty(), "no answer before the line ends");
        counter.feed(b"\n", &mut out).unwrap();
        assert_eq!(String::from_utf8(out).unwrap(), format!("{answer}\n"));
    }
}

#[test]
fn dates() {
    assert_eq!(day_number(1880, 1, 1), Some(0));
    assert_eq!(day_number(1880, 3, 1), Some(60));
    assert_eq!(day_number(1900, 1, 1), Some(7_305));
    assert_eq!(day_number(1900, 2, 28), Some(7_363));
    assert_eq!(day_number(1900, 2, 29), None);
    assert_eq!(day_number(1900, 3, 1), Some(7_364));
    assert_eq!(day_number(2000, 2, 29), Some(43_888));
    assert_eq!(day_number(2039, 12, 31), Some(58_438));
    assert_eq!(day_number(1879, 12, 31), None);
    assert_eq!(day_number(2040, 1, 1), None);
}

#[test]
fn every_day_follows_the_one_before() {
    let mut expected = 0;
    for year in 1880..2040 {
        for month in 0..=13 {
            let long = u32::from(year % 4 == 0 && year != 1900);
            let days = match month {
                2 => 28 + long,
                4 | 6 | 9 | 11 => 30,
                1..=12 => 31,
                _ => 0,
            };
            assert_eq!(day_number(year, month, 0), None);
            for day in 1..=days {
                assert_eq!(day_number(year, month, day), Some(expected));
                expected += 1;
            }
            for day in days + 1..=99 {
                assert_eq!(day_number(year, month, day), None);
            }
        }
    }
    assert_eq!(expected, 58_439);
}

#[test]
fn a_box_with_two_ends_left_is_not_cut() {
    for gust in [99, 100] {
        let mut book = Book::new(3);
        book.record([15, 20, 0, 9, 0, 9], 100).unwrap();
        // An equal gust strikes, so only the weaker one meets the held box.
        let verdict = book.record([10, 29, 0, 9, 0, 9], gust).unwrap();
        assert_eq!(verdict.verdict, Verdict::Kept);
        assert_eq!(verdict.struck, u32::from(gust == 100));
        let place = if gust == 100 { 2 } else { 23 };
        assert_eq!(
            book.page(0)[place..place + 7],
            [10, 29, 0, 9, 0, 9, gust as u16]
        );
    }
}

fn nine_in_a_row() -> Book {
    let mut book = Book::new(12);
    for east in (0..=80).step_by(10) {
        assert_eq!(
            book.record([east, east, 0, 0, 0, 0], 100),
            kept(Verdict::Kept, 0)
        );
    }
    book
}

fn leaf_words(easts: &[u16]) -> Vec<u16> {
    let mut words = vec![1, easts.len() as u16];
    for &east in easts {
        words.extend([east, east, 0, 0, 0, 0, 100]);
        words.extend([0; 14]);
    }
    words.resize(170, 0);
    words
}

#[test]
fn nine_records_split_the_first_leaf() {
    let book = nine_in_a_row();
    assert_eq!(book.page(0), leaf_words(&[0, 10, 20, 30, 40, 50]));
    assert_eq!(book.page(1), leaf_words(&[80, 60, 70]));
    let mut root = vec![2, 2];
    root.extend([0, 50, 0, 0, 0, 0, 100, 100, 0]);
    root.extend([0; 12]);
    root.extend([60, 80, 0, 0, 0, 0, 100, 100, 1]);
    root.extend([80, 80, 0, 0, 0, 0, 80, 80, 0, 0, 0, 0]);
    root.resize(170, 0);
    assert_eq!(book.page(2), root);
    assert!(book.table[3 * 170..].iter().all(|&word| word == 0));
    let small = book.small;
    assert_eq!((small.root, small.height, small.accepted), (2, 2, 9));
    assert_eq!((small.struck, small.covered), (0, 0));
}

#[test]
fn asking_between_nine_records() {
    let book = nine_in_a_row();
    let nothing = Answer {
        gust: None,
        pages: 2,
    };
    assert_eq!(book.ask([75, 79, 0, 0, 0, 0]), Ok(nothing));
    let found = Answer {
        gust: Some(100),
        pages: 2,
    };
    assert_eq!(book.ask([45, 65, 0, 0, 0, 0]), Ok(found));
}

#[test]
fn limits() {
    let mut book = Book::new(3);
    let cell = [0, 0, 0, 0, 0, 0];
    assert_eq!(book.record(cell, 1_200), kept(Verdict::Kept, 0));
    assert_eq!(book.record(cell, 1_201), Err(Refusal::Gust));
    for (end, limit) in [(1, 4_095), (3, 4_095), (5, 58_438)] {
        let mut ends = cell;
        ends[end] = limit;
        assert!(book.record(ends, 7).is_ok() && book.ask(ends).is_ok());
        for above in [limit + 1, 65_536, u32::MAX] {
            ends[end] = above;
            assert_eq!(book.record(ends, 7), Err(Refusal::Box));
            assert_eq!(book.ask(ends), Err(Refusal::Box));
            ends[end - 1] = above;
            assert_eq!(book.record(ends, 7), Err(Refusal::Box));
            assert_eq!(book.ask(ends), Err(Refusal::Box));
            ends[end - 1] = 0;
        }
    }
    assert_eq!(book.record([1, 0, 0, 0, 0, 0], 9_999), Err(Refusal::Box));
    assert_eq!(
        book.record([65_536, 65_536, 0, 0, 0, 0], 1),
        Err(Refusal::Box)
    );
    assert_eq!(book.record(cell, 65_536), Err(Refusal::Gust));
}

#[test]
fn neighbours_do_not_touch() {
    let mut book = Book::new(3);
    book.record([5, 10, 0, 0, 0, 0], 3).unwrap();
    assert_eq!(book.ask([11, 20, 0, 0, 0, 0]).unwrap().gust, None);
    assert_eq!(book.ask([10, 20, 0, 0, 0, 0]).unwrap().gust, Some(3));
}

#[test]
fn calm_is_a_gust() {
    let mut book = Book::new(3);
    book.record([5, 10, 0, 0, 0, 0], 0).unwrap();
    assert_eq!(book.ask([5, 5, 0, 0, 0, 0]).unwrap().gust, Some(0));
    assert_eq!(book.ask([4, 4, 0, 0, 0, 0]).unwrap().gust, None);
}

#[test]
fn one_or_two_pages_take_no_record() {
    for pages in [1, 2] {
        let mut book = Book::new(pages);
        assert_eq!(book.record([0; 6], 1), Err(Refusal::Full));
        assert_eq!(book.record_sound([0; 6], 1), Err(Refusal::Full));
        assert_eq!(book, Book::new(pages));
    }
    assert_eq!(Book::new(3).record([0; 6], 1), kept(Verdict::Kept, 0));
}

/// Two leaves: one with a strong box at the left, one far to the right.
fn two_leaves() -> Book {
    let mut book = Book::new(12);
    for east in [10, 0, 2, 4, 6, 90, 92, 94, 96] {
        let high = if east == 10 { 19 } else { east };
        book.record([east, high, 0, 0, 0, 0], if east == 10 { 50 } else { 40 })
            .unwrap();
    }
    assert_eq!(book.small.height, 2);
    book
}

#[test]
fn a_cut_box_does_not_strike_what_cut_it() {
    let mut book = two_leaves();
    let before = book.held().unwrap();
    // The strongest box cuts at the root and must still stand in its leaf.
    let recorded = book.record([10, 29, 0, 0, 0, 0], 50);
    assert_eq!(recorded, kept(Verdict::Cut, 0));
    assert_eq!(book.held(), Some(before + 1));
    let words = [20u16, 29, 0, 0, 0, 0, 50];
    assert!(book.table.windows(7).any(|window| window == words));
}

#[test]
fn a_union_box_is_no_covering_box() {
    let mut book = two_leaves();
    // The gap between two held cells lies in the covering box and in no record.
    assert_eq!(book.record([93, 93, 0, 0, 0, 0], 1), kept(Verdict::Kept, 0));
    assert_eq!(book.ask([93, 93, 0, 0, 0, 0]).unwrap().gust, Some(1));
}

#[test]
fn a_union_box_counts_by_the_weakest_gust() {
    let mut book = Book::new(12);
    for east in [0, 2, 4, 90, 92, 94] {
        book.record([east, east, 0, 0, 0, 0], 80).unwrap();
    }
    // The largest box is the weakest one of its leaf.
    book.record([10, 30, 0, 0, 0, 0], 20).unwrap();
    for east in [6, 96] {
        book.record([east, east, 0, 0, 0, 0], 80).unwrap();
    }
    assert_eq!(book.small.height, 2);
    assert_eq!(
        book.record([12, 14, 0, 0, 0, 0], 60),
        kept(Verdict::Kept, 0)
    );
    assert_eq!(book.ask([13, 13, 0, 0, 0, 0]).unwrap().gust, Some(60));
    assert_eq!(
        book.record([12, 14, 5, 5, 0, 0], 20).unwrap().verdict,
        Verdict::Kept
    );
    assert_eq!(
        book.record([16, 17, 0, 0, 0, 0], 20),
        kept(Verdict::Covered, 0)
    );
}

#[test]
fn a_struck_subtree_frees_its_pages_for_the_next_split() {
    let mut book = nine_in_a_row();
    // All of page 0 goes; its leaf and the root with one entry are free again.
    assert_eq!(
        book.record([0, 55, 0, 0, 0, 0], 100),
        kept(Verdict::Kept, 6)
    );
    assert_eq!((book.small.root, book.small.height), (1, 1));
    assert!(book
        .page(0)
        .iter()
        .chain(book.page(2))
        .all(|&word| word == 0));
    for east in (200..=250).step_by(10) {
        book.record([east, east, 0, 0, 0, 0], 100).unwrap();
    }
    assert_eq!((book.small.root, book.small.height), (2, 2));
    assert_eq!(book.page(0)[0], 1);
}

#[test]
fn an_index_root_left_with_nothing_is_an_empty_leaf_in_its_place() {
    let mut book = nine_in_a_row();
    assert_eq!(
        book.record([0, 4_095, 0, 0, 0, 0], 100),
        kept(Verdict::Kept, 9)
    );
    assert_eq!((book.small.root, book.small.height), (2, 1));
    assert_eq!(book.page(2)[..9], [1, 1, 0, 4_095, 0, 0, 0, 0, 100]);
    assert_eq!(book.held(), Some(1));
}

/// The root loses one of its two pages to a record that the other page then covers.
#[test]
fn a_covered_record_still_lowers_the_root() {
    let mut book = Book::new(6);
    let lost = [5, 5, 0, 0, 0, 0];
    let held = [
        record_entry([0, 9, 0, 0, 0, 0], 50),
        record_entry([100, 100, 0, 0, 0, 0], 500),
        record_entry([200, 290, 0, 99, 0, 0], 10),
    ];
    let mut second = lone_entry([0, 290, 0, 99, 0, 0], 500, 2);
    second[7] = 10;
    second[9..15].copy_from_slice(&held[1][..6]);
    second[15..].copy_from_slice(&held[2][..6]);
    put_page(&mut book.table, 0, 2, &[lone_entry(lost, 1, 1), second]);
    put_page(&mut book.table, 1, 1, &[record_entry(lost, 1)]);
    put_page(&mut book.table, 2, 1, &held);
    book.small.height = 2;
    book.small.accepted = 4;
    assert_eq!(book.held(), Some(4));
    assert_eq!(
        book.record([4, 6, 0, 0, 0, 0], 20),
        kept(Verdict::Covered, 1)
    );
    assert_eq!((book.small.root, book.small.height), (2, 1));
    assert_eq!((book.small.struck, book.small.covered), (1, 1));
    assert!(book.table[..340].iter().all(|&word| word == 0));
    assert_eq!(book.held(), Some(3));
}
