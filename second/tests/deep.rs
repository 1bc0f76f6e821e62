//! Books of very many levels, on a small stack.

mod common;

use common::{lone_entry, put_chain, record_entry, tallest_book, Book, WHOLE};
use second::{Answer, Recorded, Refusal, Verdict, PAGE_WORDS};

fn on_a_small_stack(work: impl FnOnce() + Send + 'static) {
    let thread = std::thread::Builder::new().stack_size(1 << 20);
    thread.spawn(work).unwrap().join().unwrap();
}

const LEFT: ([u16; 6], u16) = ([0, 9, 0, 9, 0, 9], 100);
const RIGHT: ([u16; 6], u16) = ([100, 109, 0, 9, 0, 9], 100);

fn recorded(verdict: Verdict, struck: u32) -> Result<Recorded, Refusal> {
    Ok(Recorded { verdict, struck })
}

#[test]
fn the_tallest_book_takes_a_record() {
    on_a_small_stack(|| {
        let mut book = tallest_book(LEFT, RIGHT);
        assert_eq!(book.held(), Some(2));
        let kept = book.record([5, 12, 3, 20, 0, 9], 50);
        assert_eq!(kept, recorded(Verdict::Kept, 0));
        assert_eq!((book.held(), book.small.height), (Some(3), 1_365));
        assert_eq!(book.ask([12, 12, 20, 20, 9, 9]).unwrap().gust, Some(50));
    });
}

#[test]
fn eight_records_split_the_deepest_leaf_alone() {
    on_a_small_stack(|| {
        let mut book = tallest_book(LEFT, RIGHT);
        for north in 20..28 {
            assert!(book.record([0, 9, north, north, 0, 9], 7).is_ok());
        }
        assert_eq!((book.held(), book.small.height), (Some(10), 1_365));
        assert_eq!(book.page(2_729)[0], 1);
    });
}

#[test]
fn a_struck_chain_brings_the_tallest_book_down() {
    on_a_small_stack(|| {
        let mut book = tallest_book(LEFT, RIGHT);
        let cut = book.record([0, 104, 0, 9, 0, 9], 100);
        // The left chain goes; the right one cuts, and then stands alone below each root.
        assert_eq!(cut, recorded(Verdict::Cut, 1));
        assert_eq!((book.held(), book.small.height), (Some(2), 1));
        assert_eq!(book.small.root, 1_364 + 1_364);
        let used = book.table.iter().filter(|&&word| word != 0).count();
        assert!(used < PAGE_WORDS);
    });
}

#[test]
fn the_tallest_book_is_emptied() {
    on_a_small_stack(|| {
        let mut book = tallest_book(LEFT, RIGHT);
        let kept = book.record(WHOLE, 100);
        assert_eq!(kept, recorded(Verdict::Kept, 2));
        assert_eq!((book.held(), book.small.height), (Some(1), 1));
        assert_eq!(book.small.root, 0);
        assert!(book.table[PAGE_WORDS..].iter().all(|&word| word == 0));
    });
}

#[test]
fn covered_in_the_deepest_leaf() {
    on_a_small_stack(|| {
        let mut book = tallest_book(LEFT, RIGHT);
        // Larger and stronger records hide this one from all entries above the leaf.
        book.record([0, 9, 2, 2, 12, 12], 60).unwrap();
        book.record([0, 9, 0, 30, 10, 11], 500).unwrap();
        let covered = book.record([1, 2, 2, 2, 12, 12], 60);
        assert_eq!(covered, recorded(Verdict::Covered, 0));
        assert_eq!(book.held(), Some(4));
    });
}

#[test]
fn one_level_more_is_full() {
    let mut book = tallest_book(LEFT, RIGHT);
    book.table.truncate(4_095 * PAGE_WORDS);
    assert!(book.record([200; 6], 1).is_ok());
    book.table.truncate(4_094 * PAGE_WORDS);
    let before = book.clone();
    assert_eq!(book.record([300; 6], 1), Err(Refusal::Full));
    assert_eq!(book.record_sound([300; 6], 1), Err(Refusal::Full));
    assert!(book == before);
}

/// All pages of the largest table below one another, none of which can answer but the last.
fn ladder() -> Book {
    let mut book = Book::new(4_096);
    put_chain(&mut book.table, 0, 4_096, [0, 9, 0, 9, 0, 9], 5);
    for page in book.table.chunks_exact_mut(PAGE_WORDS) {
        if page[0] > 1 {
            // The strongest box lies off the question.
            page[11..17].copy_from_slice(&[0; 6]);
        }
    }
    book.small.height = 4_096;
    book
}

#[test]
fn a_ladder_of_all_pages_is_searched_to_its_foot() {
    on_a_small_stack(|| {
        let mut book = ladder();
        let answer = Answer {
            gust: Some(5),
            pages: 4_096,
        };
        assert_eq!(book.ask([5; 6]), Ok(answer));
        // Its foot leads back to the top.
        book.small.height = 4_097;
        for (number, page) in book.table.chunks_exact_mut(PAGE_WORDS).enumerate() {
            page[0] += 1;
            page[10] = (number as u16 + 1) % 4_096;
        }
        assert_eq!(book.ask([5; 6]), Err(Refusal::Damaged));
        assert_eq!(book.ask([50; 6]).unwrap().pages, 1);
        assert_eq!(book.record([5; 6], 5), Err(Refusal::Damaged));
    });
}

#[test]
fn a_maze_opens_no_more_pages_than_there_are() {
    on_a_small_stack(|| {
        let mut book = ladder();
        for (number, page) in book.table.chunks_exact_mut(PAGE_WORDS).enumerate() {
            let below = number as u16 + 1;
            let mut entry = lone_entry([0, 9, 0, 9, 0, 9], 5, below);
            entry[9..15].fill(0);
            page[1] = 8;
            for slot in page[2..].chunks_exact_mut(21) {
                slot.copy_from_slice(&entry);
            }
        }
        // No leaf holds the cell asked for, so all of the maze would be opened.
        let leaf = 4_095 * PAGE_WORDS;
        for slot in book.table[leaf + 2..].chunks_exact_mut(21) {
            slot.copy_from_slice(&record_entry([7; 6], 5));
        }
        assert_eq!(book.ask([5; 6]), Err(Refusal::Damaged));
    });
}
