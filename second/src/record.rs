//! Recording: the walk of one record from the root to its leaf and back.

use crate::ground::{join, meet, size, Ground, Meeting};
use crate::page::{
    self, count, each_place, entries, held_box, leaf_entry, level, slots_mut, strongest_box,
    summary, union_box, Entry, Page, CHILD, FREE, GUST, LEAF, WEAKEST,
};
use crate::sieve::Sieve;
use crate::split::{share, OVERFULL};
use crate::tally::{Event, Note};
use crate::{Recorded, SmallRecord, Verdict};

/// One record on its way through a sound book with enough free pages.
pub(crate) struct Walk<'a, N: Note> {
    pages: &'a mut [Page],
    book: &'a mut SmallRecord,
    note: &'a mut N,
    /// What is left of the record's box.
    ground: Ground,
    gust: u16,
    cut: bool,
    struck: u32,
    /// No page below this one is free.
    free_from: usize,
}

/// How the walk came back from a page.
enum Step {
    /// The record stands; a page that was split names its second half.
    Kept(Option<u16>),
    Covered,
}

/// A held box that may cut or cover, and what to note if it does.
type Candidate<'a> = (&'a Ground, Event, Event);

impl<'a, N: Note> Walk<'a, N> {
    pub(crate) fn new(
        pages: &'a mut [Page],
        book: &'a mut SmallRecord,
        note: &'a mut N,
        free_from: usize,
    ) -> Self {
        Walk {
            pages,
            book,
            note,
            ground: [0; 6],
            gust: 0,
            cut: false,
            struck: 0,
            free_from,
        }
    }

    /// Records a box that passed the checks, and puts the root and the counts right.
    pub(crate) fn record(mut self, ground: Ground, gust: u16) -> Recorded {
        self.ground = ground;
        self.gust = gust;
        let verdict = self.walk();
        self.collapse_root();
        self.book.accepted += 1;
        self.book.struck += self.struck;
        self.book.covered += u32::from(verdict == Verdict::Covered);
        Recorded {
            verdict,
            struck: self.struck,
        }
    }

    fn walk(&mut self) -> Verdict {
        let root = self.book.root as u16;
        self.strike(root);
        if count(self.page(root)) == 0 {
            self.stand_empty(root);
        }
        match self.visit(root) {
            Step::Covered => Verdict::Covered,
            Step::Kept(second) => {
                if let Some(second) = second {
                    self.raise_root(second);
                }
                if self.cut {
                    Verdict::Cut
                } else {
                    Verdict::Kept
                }
            }
        }
    }

    /// Cuts and places the record at a page whose strikes are done, and strikes, cuts and places it
    /// below. One frame a level.
    fn visit(&mut self, number: u16) -> Step {
        if self.is_covered(number) {
            return Step::Covered;
        }
        if level(self.page(number)) == LEAF {
            return Step::Kept(self.append_record(number));
        }
        let place = self.choose(number);
        let child = entries(self.page(number))[place][CHILD];
        self.strike(child);
        let step = self.visit(child);
        self.make_exact(number, place, child);
        match step {
            Step::Kept(Some(second)) => Step::Kept(self.append_page(number, second)),
            step => step,
        }
    }

    fn page(&self, number: u16) -> &Page {
        &self.pages[usize::from(number)]
    }

    fn page_mut(&mut self, number: u16) -> &mut Page {
        &mut self.pages[usize::from(number)]
    }

    /// Strikes the entries that the record makes pointless.
    fn strike(&mut self, number: u16) {
        let marked = Sieve::struck_by(&self.ground, self.gust).places(self.page(number));
        if marked != 0 {
            self.strike_marked(number, marked);
        }
    }

    #[inline(never)]
    fn strike_marked(&mut self, number: u16, marked: u32) {
        if level(self.page(number)) == LEAF {
            for _ in 0..marked.count_ones() {
                self.struck += 1;
                self.note.note(Event::StruckRecord);
            }
        } else {
            for place in each_place(marked) {
                let child = entries(self.page(number))[place][CHILD];
                self.free_all_under(child);
                self.note.note(Event::StruckSubtree);
            }
        }
        page::take_out(self.page_mut(number), marked);
    }

    /// Frees a page and all below it, and counts the records that go with them.
    fn free_all_under(&mut self, number: u16) {
        let used = count(self.page(number));
        if level(self.page(number)) == LEAF {
            self.struck += used as u32;
        } else {
            for place in 0..used {
                let child = entries(self.page(number))[place][CHILD];
                self.free_all_under(child);
            }
        }
        self.free(number);
    }

    fn free(&mut self, number: u16) {
        self.page_mut(number).fill(0);
        self.free_from = self.free_from.min(usize::from(number));
    }

    /// Lets the root, which has lost all entries, stand as an empty leaf.
    #[inline(never)]
    fn stand_empty(&mut self, root: u16) {
        if level(self.page(root)) != LEAF {
            page::write(self.page_mut(root), LEAF, [].into_iter());
            self.book.height = u32::from(LEAF);
            self.note.note(Event::RootEmptied);
        } else if self.struck != 0 {
            self.note.note(Event::LeafRootEmptied);
        }
    }

    /// Holds the record against the page's boxes in order: they cut it, or cover it.
    fn is_covered(&mut self, number: u16) -> bool {
        let page = &self.pages[usize::from(number)];
        let is_leaf = level(page) == LEAF;
        for entry in entries(page) {
            if entry[GUST] < self.gust {
                continue;
            }
            let first: Candidate = if is_leaf {
                (held_box(entry), Event::CutByLeaf, Event::CoveredByLeaf)
            } else {
                let strongest = strongest_box(entry);
                (strongest, Event::CutByStrongest, Event::CoveredByStrongest)
            };
            if press(&mut self.ground, &mut self.cut, self.note, first) {
                return true;
            }
            if is_leaf || entry[WEAKEST] < self.gust {
                continue;
            }
            let second = (union_box(entry), Event::CutByUnion, Event::CoveredByUnion);
            if press(&mut self.ground, &mut self.cut, self.note, second) {
                return true;
            }
        }
        false
    }

    /// The place of the entry that grows least to take the record in.
    fn choose(&self, number: u16) -> usize {
        let mut best = (u64::MAX, u64::MAX, 0);
        for (place, entry) in entries(self.page(number)).iter().enumerate() {
            let before = size(held_box(entry));
            let growth = size(&join(held_box(entry), &self.ground)) - before;
            if (growth, before) < (best.0, best.1) {
                best = (growth, before, place);
            }
        }
        best.2
    }

    fn append_record(&mut self, number: u16) -> Option<u16> {
        let entry = leaf_entry(&self.ground, self.gust);
        self.append(number, &entry)
    }

    #[inline(never)]
    fn append_page(&mut self, number: u16, second: u16) -> Option<u16> {
        let entry = summary(self.page(second), second);
        self.append(number, &entry)
    }

    /// Appends an entry; a full page is split, and its second half named.
    #[inline(never)]
    fn append(&mut self, number: u16, entry: &Entry) -> Option<u16> {
        let has_room = page::append(self.page_mut(number), entry);
        (!has_room).then(|| self.split(number, entry))
    }

    /// Shares a full page's entries and a ninth between it and the lowest free page.
    fn split(&mut self, number: u16, ninth: &Entry) -> u16 {
        let mut nine = [*ninth; OVERFULL];
        nine[..OVERFULL - 1].copy_from_slice(entries(self.page(number)));
        let groups = share(&nine.map(|entry| *held_box(&entry)));
        let level = level(self.page(number));
        let second = self.take_free_page();
        for (number, group) in [number, second].into_iter().zip(&groups) {
            let held = group.places().map(|place| nine[place]);
            page::write(self.page_mut(number), level, held);
        }
        let event = if level == LEAF {
            Event::SplitLeaf
        } else {
            Event::SplitIndex
        };
        self.note.note(event);
        self.note.split_at(level);
        second
    }

    /// The lowest free page, which the caller fills at once.
    fn take_free_page(&mut self) -> u16 {
        let rest = &self.pages[self.free_from..];
        let ahead = rest.iter().position(|page| level(page) == FREE);
        let number = self.free_from + ahead.expect("enough pages were free at the start");
        self.free_from = number + 1;
        number as u16
    }

    /// Writes the exact entry for a child that the walk came back from.
    #[inline(never)]
    fn make_exact(&mut self, number: u16, place: usize, child: u16) {
        let entry = summary(self.page(child), child);
        slots_mut(self.page_mut(number))[place] = entry;
    }

    /// Sets a new root above a split one; it names the old page, then the second half.
    #[inline(never)]
    fn raise_root(&mut self, second: u16) {
        let first = self.book.root as u16;
        let above = level(self.page(first)) + 1;
        let held = [first, second].map(|half| summary(self.page(half), half));
        let root = self.take_free_page();
        page::write(self.page_mut(root), above, held.into_iter());
        self.book.root = u32::from(root);
        self.book.height += 1;
        self.note.note(Event::NewRoot);
    }

    /// Lowers the book as long as its root only leads to one other page.
    fn collapse_root(&mut self) {
        loop {
            let root = self.book.root as u16;
            let page = self.page(root);
            if level(page) == LEAF || count(page) != 1 {
                return;
            }
            self.book.root = u32::from(entries(page)[0][CHILD]);
            self.book.height -= 1;
            self.free(root);
            self.note.note(Event::RootCollapsed);
        }
    }
}

/// Holds one candidate against what is left of the record; true if it covers it.
#[inline]
fn press(ground: &mut Ground, cut: &mut bool, note: &mut impl Note, held: Candidate) -> bool {
    let (held, on_cut, on_cover) = held;
    match meet(held, ground) {
        Meeting::Apart => false,
        Meeting::Cuts(left) => {
            *ground = left;
            *cut = true;
            note.note(on_cut);
            false
        }
        Meeting::Covers => {
            note.note(on_cover);
            true
        }
    }
}
