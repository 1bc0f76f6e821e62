//! Asking: the strongest gust that touches a box.

use crate::ground::Ground;
use crate::page::{
    count, each_place, lanes, level, slots, Entry, Page, CHILD, GUST, LEAF, MOST_ENTRIES,
    STRONGEST_BOX,
};
use crate::sieve::Sieve;
use crate::{Answer, Refusal, SmallRecord};

/// Nothing is weaker than calm.
const NOTHING: i32 = -1;

/// A question under way.
struct Search<'a> {
    pages: &'a [Page],
    touching: Sieve,
    covered: Sieve,
    best: i32,
    opened: usize,
}

pub(crate) fn search(
    pages: &[Page],
    book: &SmallRecord,
    question: Ground,
) -> Result<Answer, Refusal> {
    let mut search = Search {
        pages,
        touching: Sieve::touching(&question),
        covered: Sieve::covered_by(&question),
        best: NOTHING,
        opened: 0,
    };
    // Only a root that is a leaf may stand empty.
    let fewest = usize::from(book.height != u32::from(LEAF));
    search.search_page(book.root as usize, book.height, fewest)?;
    Ok(Answer {
        gust: u32::try_from(search.best).ok(),
        pages: search.opened as u32,
    })
}

impl<'a> Search<'a> {
    /// Opens a page, if it is one of that level, and searches its entries in order.
    fn search_page(&mut self, number: usize, expected: u32, fewest: usize) -> Result<(), Refusal> {
        let pages: &'a [Page] = self.pages;
        let page = pages.get(number).ok_or(Refusal::Damaged)?;
        let fits = expected >= 1
            && u32::from(level(page)) == expected
            && (fewest..=MOST_ENTRIES).contains(&count(page))
            && self.opened < pages.len();
        if !fits {
            return Err(Refusal::Damaged);
        }
        self.opened += 1;
        let touching = self.touching.places(page);
        if level(page) == LEAF {
            self.search_leaf(page, touching);
            return Ok(());
        }
        for place in each_place(touching) {
            self.search_entry(&slots(page)[place], expected)?;
        }
        Ok(())
    }

    fn search_leaf(&mut self, page: &Page, touching: u32) {
        for place in each_place(touching) {
            self.best = self.best.max(i32::from(slots(page)[place][GUST]));
        }
    }

    /// Passes over a touching index entry, takes its strongest gust, or opens its page a level
    /// lower.
    #[inline]
    fn search_entry(&mut self, entry: &Entry, level: u32) -> Result<(), Refusal> {
        let strongest = i32::from(entry[GUST]);
        if strongest <= self.best {
            return Ok(());
        }
        let sure = self.touching.passes(lanes(entry, STRONGEST_BOX))
            || self.covered.passes(lanes(entry, 0));
        if sure {
            self.best = strongest;
            return Ok(());
        }
        self.search_page(usize::from(entry[CHILD]), level - 1, 1)
    }
}
