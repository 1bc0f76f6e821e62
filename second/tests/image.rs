//! The saved image, byte by byte, and what loading refuses.

mod common;

use common::{next_box, Book, Rng, Style};
use second::{image_length, load, save, Refusal, SmallRecord};

fn sample() -> Book {
    let mut book = Book::new(12);
    for east in (0..=80).step_by(10) {
        book.record([east, east, 0, 0, 0, 0], 100).unwrap();
    }
    book.record([60, 70, 0, 0, 0, 0], 300).unwrap();
    book.record([61, 61, 0, 0, 0, 0], 300).unwrap();
    book
}

#[test]
fn the_trailer_points_back() {
    let book = sample();
    let image = book.image();
    assert_eq!(image.len(), 340 * 12 + 22);
    for (word, bytes) in book.table.iter().zip(image.chunks(2)) {
        assert_eq!(word.to_le_bytes(), bytes);
    }
    let (accepted, struck, covered) = (11u32, 2u32, 1u32);
    let mut trailer = vec![];
    trailer.extend((340u32 * 10).to_le_bytes());
    trailer.extend([12, 0, 2, 0]);
    trailer.extend(accepted.to_le_bytes());
    trailer.extend(struck.to_le_bytes());
    trailer.extend(covered.to_le_bytes());
    trailer.extend([2, 0]);
    assert_eq!(image[340 * 12..], trailer);
}

#[test]
fn an_empty_book_comes_back() {
    for pages in [1, 2, 180, 4_096] {
        let book = Book::new(pages);
        let image = book.image();
        assert_eq!(image.len(), image_length(pages));
        let mut again = Book::new(pages);
        again.table.fill(3);
        load(&image, &mut again.table, &mut again.small).unwrap();
        assert!(again == book);
    }
}

/// Loads into a book full of other words; a refusal must leave them.
fn load_into(pages: usize, image: &[u8]) -> (Result<(), Refusal>, Book, bool) {
    let mut book = Book::new(pages);
    book.table.fill(77);
    book.small.accepted = 55;
    let before = book.clone();
    let result = load(image, &mut book.table, &mut book.small);
    let same = book == before;
    (result, book, same)
}

#[test]
fn lengths_are_refused_in_order() {
    let image = sample().image();
    for length in [0, 1, 21, 22, 23, 361, 363, image.len() - 1] {
        let (result, _, same) = load_into(12, &image[..length]);
        assert_eq!((result, same), (Err(Refusal::Size), true));
    }
    let long = vec![0; 340 * 4_097 + 22];
    let (result, _, same) = load_into(12, &long);
    assert_eq!((result, same), (Err(Refusal::Size), true));
    // The length fits one page, and then twelve, but the table does not.
    for (pages, length) in [(12, 362), (11, image.len()), (13, image.len())] {
        let (result, _, same) = load_into(pages, &image[..length]);
        assert_eq!((result, same), (Err(Refusal::Table), true));
    }
    let mut small = SmallRecord::EMPTY;
    let mut odd = vec![0; 12 * 170 + 1];
    assert_eq!(load(&image, &mut odd, &mut small), Err(Refusal::Table));
    assert_eq!(load(&[], &mut odd, &mut small), Err(Refusal::Size));
}

#[test]
fn trailers_are_refused_before_pages() {
    let image = sample().image();
    let at = 340 * 12;
    let distances = [0u32, 1, 339, 341, 340 * 13, u32::MAX, 340 * 10 + (1 << 31)];
    let mut spoilt: Vec<Vec<u8>> = distances
        .iter()
        .map(|distance| {
            let mut image = image.clone();
            image[at..at + 4].copy_from_slice(&distance.to_le_bytes());
            image
        })
        .collect();
    for (byte, value) in [(4, 11), (4, 13), (5, 1), (20, 0), (20, 1), (20, 3), (21, 1)] {
        let mut image = image.clone();
        image[at + byte] = value;
        spoilt.push(image);
    }
    for mut image in spoilt {
        let (result, _, same) = load_into(12, &image);
        assert_eq!((result, same), (Err(Refusal::Trailer), true));
        image[0] ^= 0xFF;
        assert_eq!(load_into(12, &image).0, Err(Refusal::Trailer));
    }
}

#[test]
fn a_damaged_image_leaves_the_empty_book() {
    let image = sample().image();
    let at = 340 * 12;
    for byte in [
        0,
        5,
        345,
        700,
        340 * 11,
        at + 6,
        at + 7,
        at + 8,
        at + 15,
        at + 16,
    ] {
        let mut image = image.clone();
        image[byte] ^= 0x40;
        let (result, book, _) = load_into(12, &image);
        assert_eq!(result, Err(Refusal::Damaged), "byte {byte}");
        assert!(book == Book::new(12));
    }
    let mut other_root = image.clone();
    other_root[at..at + 4].copy_from_slice(&(340u32 * 12).to_le_bytes());
    assert_eq!(load_into(12, &other_root).0, Err(Refusal::Damaged));
}

#[test]
fn saving_refuses_table_then_size_then_damage() {
    let mut book = sample();
    let mut buffer = vec![9; image_length(12) + 1];
    let table = &book.table[..book.table.len() - 1];
    assert_eq!(save(table, &book.small, &mut buffer), Err(Refusal::Table));
    book.small.accepted += 1;
    assert_eq!(
        save(&book.table, &book.small, &mut buffer),
        Err(Refusal::Size)
    );
    assert_eq!(save(&book.table, &book.small, &mut []), Err(Refusal::Size));
    buffer.pop();
    assert_eq!(
        save(&book.table, &book.small, &mut buffer),
        Err(Refusal::Damaged)
    );
    assert!(buffer.iter().all(|&byte| byte == 9));
    book.small.accepted -= 1;
    assert_eq!(save(&book.table, &book.small, &mut buffer), Ok(()));
}

fn random_book(rng: &mut Rng) -> Book {
    let mut book = Book::new(30);
    let mut earlier = vec![];
    for _ in 0..rng.below(80) {
        let ends = next_box(rng, Style::Dense, &earlier);
        let gust = rng.below(900);
        book.record(ends, gust).unwrap();
        earlier.push((ends, gust));
    }
    book
}

/// An image that loads, however it was spoilt, saves as the same bytes.
#[test]
fn spoilt_images_load_exactly_or_not_at_all() {
    let mut rng = Rng::new(21);
    let (mut loaded, mut damaged, mut trailers) = (0, 0, 0);
    for round in 0..12_000 {
        let mut image = random_book(&mut rng).image();
        let reach = if rng.one_in(4) { 22 } else { image.len() };
        let byte = image.len() - 1 - rng.below(reach as u32) as usize;
        image[byte] = image[byte].wrapping_add([1, 255, 16][round % 3]);
        let (result, got, same) = load_into(30, &image);
        match result {
            Ok(()) => {
                assert_eq!(got.image(), image);
                loaded += 1;
            }
            Err(Refusal::Damaged) => {
                assert!(got == Book::new(30));
                damaged += 1;
            }
            Err(refusal) => {
                assert_eq!((refusal, same), (Refusal::Trailer, true));
                trailers += 1;
            }
        }
    }
    println!("loaded {loaded} damaged {damaged} trailers {trailers}");
    assert!(loaded > 50 && damaged > 1_000 && trailers > 100);
}
