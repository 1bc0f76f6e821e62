//! The lent table: pages of words, their entries, and what an entry says of its page.

use crate::ground::{size, Ground};

/// Words of one page.
pub const PAGE_WORDS: usize = 170;
/// Most pages of one table.
pub const MOST_PAGES: usize = 4_096;
/// Most entries of one page.
pub const MOST_ENTRIES: usize = 8;
/// Words of one entry.
pub const ENTRY_WORDS: usize = 21;

pub(crate) type Page = [u16; PAGE_WORDS];
pub(crate) type Entry = [u16; ENTRY_WORDS];

pub(crate) const FREE: u16 = 0;
pub(crate) const LEAF: u16 = 1;

/// Words of an entry that are looked at together: a box and two more.
pub(crate) type Lanes = [u16; LANES];
pub(crate) const LANES: usize = 8;

// Where things stand in a page.
const LEVEL: usize = 0;
const COUNT: usize = 1;
const FIRST_ENTRY: usize = 2;

// Where things stand in an entry; the box comes first.
pub(crate) const GUST: usize = 6;
pub(crate) const WEAKEST: usize = 7;
pub(crate) const CHILD: usize = 8;
pub(crate) const STRONGEST_BOX: usize = 9;
const UNION_BOX: usize = 15;

/// The table as pages, if its length fits.
pub(crate) fn pages(table: &[u16]) -> Option<&[Page]> {
    let (pages, rest) = table.as_chunks();
    (rest.is_empty() && (1..=MOST_PAGES).contains(&pages.len())).then_some(pages)
}

/// The table as pages to write, if its length fits.
pub(crate) fn pages_mut(table: &mut [u16]) -> Option<&mut [Page]> {
    let (pages, rest) = table.as_chunks_mut();
    (rest.is_empty() && (1..=MOST_PAGES).contains(&pages.len())).then_some(pages)
}

#[inline]
pub(crate) fn level(page: &Page) -> u16 {
    page[LEVEL]
}

#[inline]
pub(crate) fn count(page: &Page) -> usize {
    usize::from(page[COUNT])
}

/// All eight entries, used or not.
#[inline]
pub(crate) fn slots(page: &Page) -> &[Entry] {
    page[FIRST_ENTRY..].as_chunks().0
}

#[inline]
pub(crate) fn slots_mut(page: &mut Page) -> &mut [Entry] {
    page[FIRST_ENTRY..].as_chunks_mut().0
}

/// The used entries; a spoilt count reads as eight.
#[inline]
pub(crate) fn entries(page: &Page) -> &[Entry] {
    &slots(page)[..count(page).min(MOST_ENTRIES)]
}

/// A bit for each used entry; a spoilt count reads as eight.
#[inline]
pub(crate) fn used_places(page: &Page) -> u32 {
    ALL_PLACES >> (MOST_ENTRIES - count(page).min(MOST_ENTRIES))
}

/// A bit for each entry, used or not.
pub(crate) const ALL_PLACES: u32 = (1 << MOST_ENTRIES) - 1;

/// The places whose bits are set, in order.
///
/// Hot loops over entries run on this: the compiler cannot turn such a loop inside out, and so
/// handles the words of one entry together, which lie side by side.
#[inline]
pub(crate) fn each_place(mut bits: u32) -> impl Iterator<Item = usize> {
    std::iter::from_fn(move || {
        if bits == 0 {
            return None;
        }
        let place = bits.trailing_zeros() as usize;
        bits &= bits - 1;
        Some(place)
    })
}

/// Makes the page one of that level that holds the entries, and nothing else.
pub(crate) fn write(page: &mut Page, level: u16, held: impl ExactSizeIterator<Item = Entry>) {
    page.fill(0);
    page[LEVEL] = level;
    page[COUNT] = held.len() as u16;
    for (slot, entry) in slots_mut(page).iter_mut().zip(held) {
        *slot = entry;
    }
}

/// Adds an entry behind the others, if there is room.
pub(crate) fn append(page: &mut Page, entry: &Entry) -> bool {
    let place = count(page);
    let Some(slot) = slots_mut(page).get_mut(place) else {
        return false;
    };
    *slot = *entry;
    page[COUNT] += 1;
    true
}

/// Takes out the entries whose place is marked; those behind them move up.
pub(crate) fn take_out(page: &mut Page, marked: u32) {
    let used = count(page);
    let slots = slots_mut(page);
    let mut kept = 0;
    for place in 0..used {
        if marked & (1 << place) == 0 {
            slots[kept] = slots[place];
            kept += 1;
        }
    }
    slots[kept..used].as_flattened_mut().fill(0);
    page[COUNT] = kept as u16;
}

#[inline]
fn ground_at(entry: &Entry, at: usize) -> &Ground {
    entry[at..].first_chunk().expect("a box ends in its entry")
}

/// Eight words of the entry from that one on.
#[inline]
pub(crate) fn lanes(entry: &Entry, at: usize) -> &Lanes {
    entry[at..]
        .first_chunk()
        .expect("the lanes end in their entry")
}

#[inline]
pub(crate) fn held_box(entry: &Entry) -> &Ground {
    ground_at(entry, 0)
}

#[inline]
pub(crate) fn strongest_box(entry: &Entry) -> &Ground {
    ground_at(entry, STRONGEST_BOX)
}

#[inline]
pub(crate) fn union_box(entry: &Entry) -> &Ground {
    ground_at(entry, UNION_BOX)
}

#[inline]
pub(crate) fn leaf_entry(ground: &Ground, gust: u16) -> Entry {
    let mut entry = [0; ENTRY_WORDS];
    entry[..GUST].copy_from_slice(ground);
    entry[GUST] = gust;
    entry
}

/// The exact index entry for a page; of an empty page it means nothing.
#[inline]
pub(crate) fn summary(page: &Page, number: u16) -> Entry {
    let (weakest, strongest_at, union_at) = if level(page) == LEAF {
        (GUST, 0, 0)
    } else {
        (WEAKEST, STRONGEST_BOX, UNION_BOX)
    };
    // Lows and weakest are the least of all entries, highs and strongest the greatest.
    let [least, greatest] = extremes(page);
    let (mut strongest, mut largest) = (0, 0);
    for (place, entry) in entries(page).iter().enumerate() {
        strongest = strongest.max(ranked(u64::from(entry[GUST]), place));
        largest = largest.max(ranked(size(ground_at(entry, union_at)), place));
    }
    let mut entry = [0; ENTRY_WORDS];
    for axis in [0, 2, 4] {
        entry[axis] = least[axis];
        entry[axis + 1] = greatest[axis + 1];
    }
    entry[GUST] = greatest[GUST];
    entry[WEAKEST] = least[weakest];
    entry[CHILD] = number;
    let strongest = ground_at(&slots(page)[place_of(strongest)], strongest_at);
    let largest = ground_at(&slots(page)[place_of(largest)], union_at);
    entry[STRONGEST_BOX..UNION_BOX].copy_from_slice(strongest);
    entry[UNION_BOX..].copy_from_slice(largest);
    entry
}

/// The least and the greatest of each of the first eight words over the used entries. Kept
/// apart from its caller, which leaves out half of them and so would break up the lanes.
#[inline(never)]
fn extremes(page: &Page) -> [Lanes; 2] {
    let (mut least, mut greatest) = ([u16::MAX; LANES], [0; LANES]);
    for place in each_place(used_places(page)) {
        for (lane, &word) in lanes(&slots(page)[place], 0).iter().enumerate() {
            least[lane] = least[lane].min(word);
            greatest[lane] = greatest[lane].max(word);
        }
    }
    [least, greatest]
}

/// A measure with its place in the low bits, so that of equal ones the lower place is greater.
#[inline]
fn ranked(measure: u64, place: usize) -> u64 {
    measure * MOST_ENTRIES as u64 + (MOST_ENTRIES - 1 - place) as u64
}

#[inline]
fn place_of(ranked: u64) -> usize {
    MOST_ENTRIES - 1 - ranked as usize % MOST_ENTRIES
}
