//! Every kind of damage that the rules of a well-formed book name, done to a good book: refused by 4, and questions are answered alike.
use bench::twice::{five, sides, Call, Lent, Twice};
use bench::{book, question, Seed, SPARSE};
use second::PAGE_WORDS;

const LEVEL: usize = 0;
const COUNT: usize = 1;
const ENTRIES: usize = 2;
const GUST: usize = 6;
const CHILD: usize = 8;
const ROOT: usize = 0;
const HEIGHT: usize = 1;
const ACCEPTED: usize = 2;
const STRUCK: usize = 3;
const COVERED: usize = 4;

/// The first page that passes a test.
fn find(table: &[u16], test: impl Fn(usize, &[u16]) -> bool) -> usize {
    let mut pages = table.chunks(PAGE_WORDS).enumerate();
    let found = pages.find(|(p, page)| test(*p, page));
    found.expect("the book has such a page").0
}

fn at(page: usize, word: usize) -> usize {
    page * PAGE_WORDS + word
}

type Damage = (&'static str, Lent);

/// A copy of a book with other words from a place on.
fn words(good: &Lent, at: usize, words: &[u16]) -> Lent {
    let mut lent = good.clone();
    lent.table[at..at + words.len()].copy_from_slice(words);
    lent
}

/// Damage to pages, each to a copy of a good book of three levels or more.
fn damaged_pages(good: &Lent) -> Vec<Damage> {
    let (table, root) = (&good.table, good.small[ROOT] as usize);
    let leaf = find(table, |p, x| p != root && x[LEVEL] == 1 && x[COUNT] < 8);
    let index = find(table, |p, x| p != root && x[LEVEL] == 2);
    let free = find(table, |_, x| x[LEVEL] == 0);
    let child = at(root, ENTRIES + CHILD);
    let summary = at(index, ENTRIES + GUST);
    let put = |at, new: &[u16]| words(good, at, new);
    let blank = [0; PAGE_WORDS];
    let rest = PAGE_WORDS - ENTRIES - 21;
    let alone = put(at(root, ENTRIES + 21), &blank[..rest]);
    let stray = &table[at(leaf, 0)..][..PAGE_WORDS];
    vec![
        ("a child outside the table", put(child, &[60_000])),
        ("two parents", put(child, &[table[child + 21]])),
        ("a cycle", put(child, &[root as u16])),
        ("a stray page", put(at(free, 0), stray)),
        ("a free page with a word set", put(at(free, 100), &[1])),
        ("an unused word set", put(at(leaf, PAGE_WORDS - 1), &[1])),
        ("a summary off by one", put(summary, &[table[summary] + 1])),
        ("a child not one level lower", put(at(index, LEVEL), &[3])),
        (
            "an index root of one entry",
            words(&alone, at(root, COUNT), &[1]),
        ),
        (
            "an empty page below the root",
            put(at(leaf, COUNT), &blank[COUNT..]),
        ),
        ("a count of 9", put(at(leaf, COUNT), &[9])),
        (
            "a gust above the limit",
            put(at(leaf, ENTRIES + GUST), &[1_201]),
        ),
    ]
}

/// Damage to the small record.
fn damaged_numbers(good: &Lent) -> Vec<Damage> {
    let small = good.small;
    let put = |changes: &[(usize, u32)]| {
        let mut lent = good.clone();
        changes
            .iter()
            .for_each(|(k, number)| lent.small[*k] = *number);
        lent
    };
    let covered = 1_000_001 - small[ACCEPTED] + small[COVERED];
    vec![
        ("height 0", put(&[(HEIGHT, 0)])),
        (
            "a height above 65,535",
            put(&[(HEIGHT, small[HEIGHT] + 65_536)]),
        ),
        ("a root outside the table", put(&[(ROOT, 120)])),
        ("a root above 65,535", put(&[(ROOT, small[ROOT] + 65_536)])),
        (
            "too many accepted",
            put(&[(ACCEPTED, 1_000_001), (COVERED, covered)]),
        ),
        ("a wrong sum", put(&[(STRUCK, small[STRUCK] + 1)])),
    ]
}

#[test]
fn every_named_damage_is_found_and_answered_alike() {
    let mut seed = Seed::of(5);
    let (table, small, _) = book(120, 500, &SPARSE, &mut seed);
    let image = vec![1; gustbook::image_bytes(120)];
    let small = five(&small);
    let good = Lent {
        table,
        small,
        image,
    };
    assert!(small[HEIGHT] >= 3 && gustbook::count(&good.table, &small).is_ok());
    for (name, lent) in [damaged_pages(&good), damaged_numbers(&good)].concat() {
        let (proved, second) = sides();
        let mut twice = Twice::new(proved, second, lent);
        let mut call = |call: Call| {
            twice
                .call(&call)
                .unwrap_or_else(|what| panic!("{name}: {what}"))
        };
        let place = SPARSE.place(&mut seed);
        for refused in [Call::Count, Call::Save, Call::Record(place, 1_200)] {
            assert_eq!(call(refused).number, 4, "{name}");
        }
        for _ in 0..300 {
            let parts = seed.pick(&[1, 1_000, 100_000, 999_000]);
            call(Call::Ask(question(parts, &mut seed)));
        }
    }
}
