//! The check that a book is well-formed, in one pass over its pages.

use crate::ground::is_legal;
use crate::page::{
    count, each_place, entries, held_box, level, pages, slots, summary, used_places, Page,
    ALL_PLACES, CHILD, ENTRY_WORDS, FREE, GUST, LEAF, MOST_ENTRIES, MOST_PAGES,
};
use crate::{SmallRecord, MOST_ACCEPTED, MOST_GUST};

/// What the check finds out about a well-formed book.
#[derive(Clone, Copy, Debug, PartialEq, Eq)]
pub struct Sound {
    /// Records that stand in leaves.
    pub held: u32,
    /// Free pages.
    pub free: u32,
    /// No page below this one is free.
    pub lowest_free: usize,
}

/// One mark for each page that an entry has named.
struct Named([u64; MOST_PAGES / 64]);

impl Named {
    /// Marks a page; false if it was marked before.
    fn mark(&mut self, number: usize) -> bool {
        let bit = 1 << (number % 64);
        let word = &mut self.0[number / 64];
        let fresh = *word & bit == 0;
        *word |= bit;
        fresh
    }
}

/// Looks at every page once. `None` means that the book is damaged.
pub fn well_formed(table: &[u16], book: &SmallRecord) -> Option<Sound> {
    inspect(pages(table)?, book)
}

/// The pass itself.
///
/// A named page is one level below the page that names it, so whoever goes up from namer to
/// namer must come to an end, at a page without a name. If that can only be the root, and no
/// page has two names, then one way leads from the root to each page in use.
pub(crate) fn inspect(pages: &[Page], book: &SmallRecord) -> Option<Sound> {
    let root = book.root as usize;
    let top = pages.get(root)?;
    if u32::from(level(top)) != book.height || level(top) == FREE {
        return None;
    }
    let mut pass = Pass::new(pages);
    for (number, page) in pages.iter().enumerate() {
        if !pass.look_at(number, page, number == root) {
            return None;
        }
    }
    let held = pass.held as u32;
    // Names are distinct and never of free pages, so their number tells that only the root,
    // which must not be marked yet, lacks one.
    let in_place = pass.names + 1 == pass.used && pass.named.mark(root);
    (in_place && counts_add_up(held, book)).then(|| Sound {
        held,
        free: (pages.len() - pass.used) as u32,
        lowest_free: pass.lowest_free,
    })
}

/// What the pass has come by so far.
struct Pass<'a> {
    pages: &'a [Page],
    named: Named,
    /// Entries of leaves.
    held: usize,
    /// Entries of index pages.
    names: usize,
    /// Pages that are not free.
    used: usize,
    lowest_free: usize,
}

impl<'a> Pass<'a> {
    fn new(pages: &'a [Page]) -> Self {
        Pass {
            pages,
            named: Named([0; MOST_PAGES / 64]),
            held: 0,
            names: 0,
            used: 0,
            lowest_free: pages.len(),
        }
    }

    /// Takes in one page; false if no sound book has it.
    #[inline]
    fn look_at(&mut self, number: usize, page: &Page, is_root: bool) -> bool {
        let level = level(page);
        if level == FREE {
            self.lowest_free = self.lowest_free.min(number);
            return is_blank(page);
        }
        self.used += 1;
        let fewest = fewest_entries(is_root, level);
        if !(fewest..=MOST_ENTRIES).contains(&count(page)) {
            return false;
        }
        if level == LEAF {
            self.held += count(page);
            leaf_is_legal(page)
        } else {
            self.names += count(page);
            self.index_is_exact(page)
        }
    }

    /// Whether each entry tells the truth about a child not named before, and other words are 0.
    #[inline]
    fn index_is_exact(&mut self, page: &Page) -> bool {
        for entry in entries(page) {
            let number = entry[CHILD];
            let Some(child) = self.pages.get(usize::from(number)) else {
                return false;
            };
            let fits = level(child) == level(page) - 1 && self.named.mark(usize::from(number));
            if !fits || *entry != summary(child, number) {
                return false;
            }
        }
        unused_are_blank(page)
    }
}

fn fewest_entries(is_root: bool, level: u16) -> usize {
    match (is_root, level) {
        (false, _) => 1,
        (true, LEAF) => 0,
        (true, _) => 2,
    }
}

fn counts_add_up(held: u32, book: &SmallRecord) -> bool {
    let sum = u64::from(held) + u64::from(book.struck) + u64::from(book.covered);
    book.accepted <= MOST_ACCEPTED && sum == u64::from(book.accepted)
}

/// Whether all words are 0, without stopping early, so that many are looked at together.
#[inline]
fn is_blank(words: &[u16]) -> bool {
    words.iter().fold(0, |any, word| any | word) == 0
}

/// Lays the words over those gathered before.
#[inline]
fn gather<const N: usize>(gathered: &mut [u16; N], words: &[u16]) {
    for (any, word) in gathered.iter_mut().zip(words) {
        *any |= word;
    }
}

/// Whether the entries are records, and all other words 0.
#[inline]
fn leaf_is_legal(page: &Page) -> bool {
    let mut legal = true;
    let mut behind = [0; ENTRY_WORDS - GUST - 1];
    for place in each_place(used_places(page)) {
        let entry = &slots(page)[place];
        legal &= is_legal(held_box(entry)) & (u32::from(entry[GUST]) <= MOST_GUST);
        gather(&mut behind, &entry[GUST + 1..]);
    }
    legal & is_blank(&behind) & unused_are_blank(page)
}

#[inline]
fn unused_are_blank(page: &Page) -> bool {
    let mut unused = [0; ENTRY_WORDS];
    for place in each_place(ALL_PLACES & !used_places(page)) {
        gather(&mut unused, &slots(page)[place]);
    }
    is_blank(&unused)
}
