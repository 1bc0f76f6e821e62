//! The one-pass check against the walk from the root, on slightly spoilt books.

mod common;

use common::slow::held_if_well_formed;
use common::{lone_entry, next_box, next_gust, put_chain, put_page, Book, Rng, STYLES};
use second::{well_formed, PAGE_WORDS};

fn random_book(rng: &mut Rng, seed: usize) -> Book {
    let style = STYLES[seed % STYLES.len()];
    let mut book = Book::new(1 + rng.below(40) as usize);
    let mut earlier = vec![];
    for _ in 0..rng.below(150) {
        let ends = next_box(rng, style, &earlier);
        let gust = next_gust(rng, (seed / 8 % 5) as u32, earlier.len());
        if book.record(ends, gust).is_ok() {
            earlier.push((ends, gust));
        }
    }
    book
}

/// Changes one thing: a word, a page's name, an order, or a count.
fn spoil(rng: &mut Rng, book: &mut Book) {
    let pages = book.pages() as u32;
    let page = rng.below(pages) as usize * PAGE_WORDS;
    let other = rng.below(pages) as usize * PAGE_WORDS;
    let used = 2 + 21 * usize::from(book.table[page + 1]).min(8);
    let word = page + rng.below(used as u32) as usize;
    match rng.below(14) {
        0 => book.table[word] = rng.next() as u16,
        1 => book.table[word] = book.table[word].wrapping_add(1),
        2 => book.table[word] = book.table[word].wrapping_sub(1),
        3 => book.table[page + rng.below(170) as usize] ^= 1 << rng.below(16),
        4 => book.table[page + rng.below(2) as usize] = rng.below(10) as u16,
        5 => book.table.copy_within(page..page + 170, other),
        6 => book.table[page..page + 170].fill(0),
        7 => swap_entries(rng, book, page),
        8 => swap_pages(book, page, other),
        9 => book.table[page + 10 + 21 * rng.below(8) as usize] = rng.below(pages + 1) as u16,
        10 => book.small.root = rng.below(pages + 2),
        11 => book.small.height = book.small.height.wrapping_add(rng.below(3)).wrapping_sub(1),
        12 => spoil_counts(rng, book),
        _ => book.table[page + rng.below(170) as usize] = 0,
    }
}

/// Swapping two entries may well leave the book sound.
fn swap_entries(rng: &mut Rng, book: &mut Book, page: usize) {
    let count = u32::from(book.table[page + 1]).clamp(1, 8);
    let [a, b] = [(); 2].map(|()| page + 2 + 21 * rng.below(count) as usize);
    for word in 0..21 {
        book.table.swap(a + word, b + word);
    }
}

/// Swaps two pages and the numbers that name them; the book stays sound.
fn swap_pages(book: &mut Book, page: usize, other: usize) {
    let [one, two] = [page, other].map(|at| (at / PAGE_WORDS) as u16);
    if one == two {
        return;
    }
    let renamed = |name: u16| match name {
        name if name == one => two,
        name if name == two => one,
        name => name,
    };
    for words in book.table.chunks_exact_mut(PAGE_WORDS) {
        if words[0] > 1 {
            let count = usize::from(words[1]).min(8);
            for entry in words[2..].chunks_exact_mut(21).take(count) {
                entry[8] = renamed(entry[8]);
            }
        }
    }
    book.small.root = u32::from(renamed(book.small.root as u16));
    for word in 0..PAGE_WORDS {
        book.table.swap(page + word, other + word);
    }
}

fn spoil_counts(rng: &mut Rng, book: &mut Book) {
    let small = &mut book.small;
    match rng.below(6) {
        0 => small.accepted = small.accepted.wrapping_add(1),
        1 => small.struck = small.struck.wrapping_add(1),
        2 => small.covered = small.covered.wrapping_sub(1),
        3 => {
            // A sum that only wraps around to the right number is wrong.
            small.struck = small.struck.wrapping_add(1 << 31);
            small.covered = small.covered.wrapping_add(1 << 31);
        }
        4 => {
            let held = small.accepted - small.struck.min(small.accepted);
            let held = held.saturating_sub(small.covered);
            small.accepted = 1_000_000 + rng.below(2);
            small.covered = 0;
            small.struck = small.accepted.wrapping_sub(held);
        }
        _ => {
            small.accepted = small.accepted.wrapping_add(1);
            small.covered = small.covered.wrapping_add(1);
        }
    }
}

#[test]
fn the_pass_and_the_walk_agree() {
    let mut rng = Rng::new(11);
    let (mut sound, mut damaged) = (0, 0);
    for seed in 0..1_500 {
        let book = random_book(&mut rng, seed);
        assert!(book.held().is_some());
        for _ in 0..20 {
            let mut spoilt = book.clone();
            for _ in 0..1 + rng.below(2) {
                spoil(&mut rng, &mut spoilt);
            }
            let found = well_formed(&spoilt.table, &spoilt.small).map(|sound| sound.held);
            let expected = held_if_well_formed(&spoilt.table, &spoilt.small);
            assert_eq!(found.map(u64::from), expected);
            match found {
                Some(_) if spoilt != book => sound += 1,
                Some(_) => {}
                None => damaged += 1,
            }
        }
    }
    println!("changed yet sound {sound}, damaged {damaged}");
    assert!(sound > 1_000 && damaged > 10_000);
}

#[test]
fn every_single_word_matters() {
    let mut rng = Rng::new(3);
    let mut book = Book::new(24);
    let mut earlier = vec![];
    while book.small.height < 3 {
        let ends = next_box(&mut rng, STYLES[1], &earlier);
        book.record(ends, rng.below(1_000)).unwrap();
        earlier.push((ends, 0));
    }
    let (mut sound, mut damaged) = (0, 0);
    for word in 0..book.table.len() {
        for change in [1, 0xFFFF, 0x8000] {
            let mut spoilt = book.clone();
            spoilt.table[word] = spoilt.table[word].wrapping_add(change);
            let found = well_formed(&spoilt.table, &spoilt.small).map(|sound| sound.held);
            let expected = held_if_well_formed(&spoilt.table, &spoilt.small);
            assert_eq!(found.map(u64::from), expected, "word {word}");
            sound += u32::from(found.is_some());
            damaged += u32::from(found.is_none());
        }
    }
    // Only a leaf's inner ends and gusts are free to be otherwise.
    assert!(sound > 0 && damaged > 20 * sound);
}

#[test]
fn a_table_of_another_length_is_not_well_formed() {
    let book = Book::new(3);
    for length in [0, 1, 169, 171, 509, 340 + 1] {
        assert_eq!(well_formed(&book.table[..length], &book.small), None);
    }
    assert!(well_formed(&book.table[..170], &book.small).is_some());
    let mut long = vec![0; 4_097 * PAGE_WORDS];
    long[0] = 1;
    assert_eq!(well_formed(&long, &book.small), None);
    long.truncate(4_096 * PAGE_WORDS);
    assert!(well_formed(&long, &book.small).is_some());
}

#[test]
fn root_and_height_are_not_cut_to_words() {
    let mut book = Book::new(3);
    for change in [65_536, 1 << 31] {
        book.small.root = change;
        assert_eq!(book.held(), None);
        book.small.root = 0;
        book.small.height = 1 + change;
        assert_eq!(book.held(), None);
        book.small.height = 1;
    }
    assert_eq!(book.held(), Some(0));
}

/// Each page names the next one eight times: a walk without a guard would never end.
#[test]
fn a_maze_is_refused_at_once() {
    let mut book = Book::new(4_096);
    for page in 0..4_096usize {
        let words = &mut book.table[page * PAGE_WORDS..][..PAGE_WORDS];
        words[0] = (4_096 - page) as u16;
        words[1] = 8;
        for entry in words[2..].chunks_exact_mut(21) {
            entry[8] = if page == 4_095 { 0 } else { page as u16 + 1 };
        }
    }
    book.small.height = 4_096;
    assert_eq!(book.held(), None);
}

#[test]
fn an_index_root_needs_two_entries() {
    let ends = [3, 4, 5, 6, 7, 8];
    let mut book = Book::new(8);
    put_chain(&mut book.table, 0, 3, ends, 40);
    book.small.height = 3;
    book.small.accepted = 1;
    assert_eq!(book.held(), None);
    assert_eq!(held_if_well_formed(&book.table, &book.small), None);
    // Below the root one entry is enough.
    put_chain(&mut book.table, 4, 2, ends, 40);
    let both = [lone_entry(ends, 40, 1), lone_entry(ends, 40, 4)];
    put_page(&mut book.table, 0, 3, &both);
    book.small.accepted = 2;
    assert_eq!(book.held(), Some(2));
    assert_eq!(held_if_well_formed(&book.table, &book.small), Some(2));
}
