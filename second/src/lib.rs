//! A gust book. It keeps boxes of ground and days with the strongest gust measured in them,
//! in a lent table of pages, and answers which gust was the strongest in any box.
//!
//! All calls work on a lent table of words and a small record. A refusal leaves both as they
//! were; only a load that finds a damaged book leaves the empty book.

#![forbid(unsafe_code)]

mod ask;
mod calendar;
mod check;
mod ground;
mod image;
mod line;
mod page;
mod record;
mod sheet;
mod sieve;
mod split;
mod strip;
mod tally;

pub use calendar::day_number;
pub use check::{well_formed, Sound};
pub use ground::{GustBox, LIMITS};
pub use image::{image_length, PAGE_BYTES, TRAILER_BYTES};
pub use line::{Counter, COUNTER_PAGES};
pub use page::{ENTRY_WORDS, MOST_ENTRIES, MOST_PAGES, PAGE_WORDS};
pub use sheet::{ask_sheet, Row, MOST_ROWS};
pub use strip::{legal_days, legal_report, Strip, MOST_SEGMENTS, STRIP_DAYS};
pub use tally::{Event, Note, Tally};

use ground::Ground;
use page::{level, pages, pages_mut, Page, FREE, LEAF};
use record::Walk;

/// The strongest gust that can be recorded, in tenths of a metre a second.
pub const MOST_GUST: u32 = 1_200;
/// How many records a book takes in all.
pub const MOST_ACCEPTED: u32 = 1_000_000;

/// What a book keeps besides its table.
#[derive(Clone, Copy, Debug, PartialEq, Eq, Hash)]
pub struct SmallRecord {
    pub root: u32,
    pub height: u32,
    pub accepted: u32,
    pub struck: u32,
    pub covered: u32,
}

impl SmallRecord {
    /// The small record of an empty book.
    pub const EMPTY: SmallRecord = SmallRecord {
        root: 0,
        height: LEAF as u32,
        accepted: 0,
        struck: 0,
        covered: 0,
    };
}

/// Why the book says no.
#[derive(Clone, Copy, Debug, PartialEq, Eq, Hash)]
#[repr(u8)]
pub enum Refusal {
    Table = 1,
    Box = 2,
    Gust = 3,
    Damaged = 4,
    Spent = 5,
    Full = 6,
    Size = 7,
    Trailer = 8,
    Line = 9,
    Strip = 10,
    Sheet = 11,
}

impl Refusal {
    pub fn number(self) -> u8 {
        self as u8
    }
}

/// What became of a record's box.
#[derive(Clone, Copy, Debug, PartialEq, Eq, Hash)]
pub enum Verdict {
    Kept,
    /// Kept, but smaller.
    Cut,
    Covered,
}

/// The answer to recording.
#[derive(Clone, Copy, Debug, PartialEq, Eq, Hash)]
pub struct Recorded {
    pub verdict: Verdict,
    /// Held records that this one struck.
    pub struck: u32,
}

/// The answer to a question.
#[derive(Clone, Copy, Debug, PartialEq, Eq, Hash)]
pub struct Answer {
    /// The strongest gust, or `None` where nothing was recorded.
    pub gust: Option<u32>,
    /// Pages opened.
    pub pages: u32,
}

/// The answer to counting.
#[derive(Clone, Copy, Debug, PartialEq, Eq, Hash)]
pub struct Counts {
    pub accepted: u32,
    pub held: u32,
    pub struck: u32,
    pub covered: u32,
}

/// Makes the empty book. Refuses 1.
pub fn clear(table: &mut [u16], book: &mut SmallRecord) -> Result<(), Refusal> {
    let pages = pages_mut(table).ok_or(Refusal::Table)?;
    clear_pages(pages, book);
    Ok(())
}

fn clear_pages(pages: &mut [Page], book: &mut SmallRecord) {
    pages.as_flattened_mut().fill(0);
    page::write(&mut pages[0], LEAF, [].into_iter());
    *book = SmallRecord::EMPTY;
}

/// Records a gust over a box. Refuses 1, 2, 3, 4, 5, 6 in this order.
pub fn record(
    table: &mut [u16],
    book: &mut SmallRecord,
    ground: GustBox,
    gust: u32,
) -> Result<Recorded, Refusal> {
    record_noting(table, book, ground, gust, &mut ())
}

/// Records, and tells `note` which rules applied.
pub fn record_noting(
    table: &mut [u16],
    book: &mut SmallRecord,
    ground: GustBox,
    gust: u32,
    note: &mut impl Note,
) -> Result<Recorded, Refusal> {
    let pages = pages_mut(table).ok_or(Refusal::Table)?;
    let (ground, gust) = legal_record(ground, gust)?;
    let sound = check::inspect(pages, book).ok_or(Refusal::Damaged)?;
    if book.accepted == MOST_ACCEPTED {
        return Err(Refusal::Spent);
    }
    if sound.free < book.height + 1 {
        return Err(Refusal::Full);
    }
    Ok(Walk::new(pages, book, note, sound.lowest_free).record(ground, gust))
}

/// Records in a book that is known to be well-formed, without checking that it is: refuses
/// 1, 2, 3, 5, 6. On a damaged book nothing is promised; it may panic.
pub fn record_sound(
    table: &mut [u16],
    book: &mut SmallRecord,
    ground: GustBox,
    gust: u32,
) -> Result<Recorded, Refusal> {
    record_sound_noting(table, book, ground, gust, &mut ())
}

/// Records in a book known to be well-formed, and tells `note` which rules applied.
pub fn record_sound_noting(
    table: &mut [u16],
    book: &mut SmallRecord,
    ground: GustBox,
    gust: u32,
    note: &mut impl Note,
) -> Result<Recorded, Refusal> {
    let pages = pages_mut(table).ok_or(Refusal::Table)?;
    let (ground, gust) = legal_record(ground, gust)?;
    if book.accepted == MOST_ACCEPTED {
        return Err(Refusal::Spent);
    }
    // High pages are used last, so the free ones are soon found from the end.
    let free = pages.iter().rev().filter(|page| level(page) == FREE);
    let needed = book.height as usize + 1;
    if free.take(needed).count() < needed {
        return Err(Refusal::Full);
    }
    Ok(Walk::new(pages, book, note, 0).record(ground, gust))
}

fn legal_record(ground: GustBox, gust: u32) -> Result<(Ground, u16), Refusal> {
    let ground = ground.ground()?;
    if gust > MOST_GUST {
        return Err(Refusal::Gust);
    }
    Ok((ground, gust as u16))
}

/// The strongest gust that touches a box. Refuses 1, 2, 4 in this order.
pub fn ask(table: &[u16], book: &SmallRecord, question: GustBox) -> Result<Answer, Refusal> {
    let pages = pages(table).ok_or(Refusal::Table)?;
    ask::search(pages, book, question.ground()?)
}

/// The four numbers of a book. Refuses 1, 4 in this order.
pub fn count(table: &[u16], book: &SmallRecord) -> Result<Counts, Refusal> {
    let pages = pages(table).ok_or(Refusal::Table)?;
    let sound = check::inspect(pages, book).ok_or(Refusal::Damaged)?;
    Ok(Counts {
        accepted: book.accepted,
        held: sound.held,
        struck: book.struck,
        covered: book.covered,
    })
}

/// Writes the book's image into a buffer of its very length. Refuses 1, 7, 4 in this order.
pub fn save(table: &[u16], book: &SmallRecord, image: &mut [u8]) -> Result<(), Refusal> {
    let pages = pages(table).ok_or(Refusal::Table)?;
    if image.len() != image_length(pages.len()) {
        return Err(Refusal::Size);
    }
    check::inspect(pages, book).ok_or(Refusal::Damaged)?;
    image::write(table, book, image);
    Ok(())
}

/// Reads an image into a table of as many pages. Refuses 7, 1, 8, 4 in this order; a refusal
/// by 4 leaves the empty book.
pub fn load(image: &[u8], table: &mut [u16], book: &mut SmallRecord) -> Result<(), Refusal> {
    let count = image::pages_of(image.len()).ok_or(Refusal::Size)?;
    if table.len() != count * PAGE_WORDS {
        return Err(Refusal::Table);
    }
    let loaded = image::read_trailer(image, count)?;
    image::read_pages(image, table);
    if well_formed(table, &loaded).is_none() {
        clear(table, book)?;
        return Err(Refusal::Damaged);
    }
    *book = loaded;
    Ok(())
}
