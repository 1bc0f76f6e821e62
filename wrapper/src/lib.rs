//! The gust book's calls, behind safe Rust. `include/gustbook.h` says what each refuses and leaves.

/// Words of a page, the most pages of a book, and the most rows of a sheet.
pub const PAGE_WORDS: usize = 170;
pub const MOST_PAGES: usize = 4_096;
pub const MOST_ROWS: usize = 32;

/// The bytes of the image of a book of so many pages.
pub const fn image_bytes(pages: usize) -> usize {
    2 * PAGE_WORDS * pages + 22
}

/// The library's own functions: slices are pointer and length, all else is numbers that the caller lends.
pub mod raw {
    extern "C" {
        pub fn gust_clear(table: *mut u16, words: usize, small: *mut [u32; 5]) -> u32;
        pub fn gust_record(
            table: *mut u16,
            words: usize,
            small: *mut [u32; 5],
            place: *const [u32; 6],
            gust: u32,
            answer: *mut [u32; 2],
        ) -> u32;
        pub fn gust_ask(
            table: *const u16,
            words: usize,
            small: *const [u32; 5],
            place: *const [u32; 6],
            answer: *mut [u32; 3],
        ) -> u32;
        pub fn gust_ask_sheet(
            table: *const u16,
            words: usize,
            small: *const [u32; 5],
            rows: *mut super::Row,
            count: usize,
        ) -> u32;
        pub fn gust_count(
            table: *const u16,
            words: usize,
            small: *const [u32; 5],
            answer: *mut [u32; 4],
        ) -> u32;
        pub fn gust_save(
            table: *const u16,
            words: usize,
            small: *const [u32; 5],
            image: *mut u8,
            bytes: usize,
        ) -> u32;
        pub fn gust_load(
            image: *const u8,
            bytes: usize,
            table: *mut u16,
            words: usize,
            small: *mut [u32; 5],
        ) -> u32;
        pub fn gust_strip_clear(segments: *mut u32, words: usize, count: *mut u32) -> u32;
        pub fn gust_strip_record(
            segments: *mut u32,
            words: usize,
            count: *mut u32,
            days: *const [u32; 2],
            gust: u32,
        ) -> u32;
        pub fn gust_strip_ask(
            segments: *const u32,
            words: usize,
            count: u32,
            days: *const [u32; 2],
            answer: *mut [u32; 2],
        ) -> u32;
    }
}

/// The small record: root, height, accepted, struck, covered.
pub type Small = [u32; 5];
/// A box: east low, east high, north low, north high, day low, day high.
pub type Place = [u32; 6];

/// A range of days: low, high.
pub type Days = [u32; 2];
/// The words of a strip.
pub const STRIP_WORDS: usize = 1_024;

/// The number of a refusal, 1 to 8, 10 for a strip that would be too long, or 11 for a sheet that is.
#[derive(Clone, Copy, Debug, PartialEq, Eq)]
pub struct Refusal(pub u32);

#[derive(Clone, Copy, Debug, PartialEq, Eq)]
pub enum Outcome {
    Kept,
    /// Kept after a cut.
    Cut,
    Covered,
}

#[derive(Clone, Copy, Debug, PartialEq, Eq)]
pub struct Recorded {
    pub outcome: Outcome,
    pub struck: u32,
}

/// The strongest gust, `None` for nothing, and the pages opened.
#[derive(Clone, Copy, Debug, PartialEq, Eq)]
pub struct Asked {
    pub gust: Option<u32>,
    pub pages: u32,
}

/// A question on a sheet, and the places for its answer: the refusal's number or 0; 1 and the gust, or 0 and 0; the pages
/// opened. A refused question's other numbers are 0.
#[repr(C)]
#[derive(Clone, Copy, Debug, PartialEq, Eq)]
pub struct Row {
    pub place: Place,
    pub refusal: u32,
    pub any: u32,
    pub gust: u32,
    pub pages: u32,
}

impl Row {
    pub fn new(place: Place) -> Self {
        Row {
            place,
            refusal: 0,
            any: 0,
            gust: 0,
            pages: 0,
        }
    }

    /// What `ask` gives for the row's question, once the sheet is answered.
    pub fn answer(&self) -> Result<Asked, Refusal> {
        accepted(self.refusal)?;
        Ok(asked([self.any, self.gust, self.pages]))
    }
}

#[derive(Clone, Copy, Debug, PartialEq, Eq)]
pub struct Counted {
    pub accepted: u32,
    pub held: u32,
    pub struck: u32,
    pub covered: u32,
}

fn accepted(number: u32) -> Result<(), Refusal> {
    match number {
        0 => Ok(()),
        n => Err(Refusal(n)),
    }
}

// SAFETY, for every call below: a slice is passed whole, with its own length; arrays are borrowed for the call; what is
// lent to be changed is borrowed alone. The callee is proved to touch nothing else, whatever the contents.

pub fn clear(table: &mut [u16], small: &mut Small) -> Result<(), Refusal> {
    accepted(unsafe { raw::gust_clear(table.as_mut_ptr(), table.len(), small) })
}

pub fn record(
    table: &mut [u16],
    small: &mut Small,
    place: &Place,
    gust: u32,
) -> Result<Recorded, Refusal> {
    let mut answer = [0; 2];
    let (words, len) = (table.as_mut_ptr(), table.len());
    accepted(unsafe { raw::gust_record(words, len, small, place, gust, &mut answer) })?;
    Ok(recorded(answer))
}

/// The answer to a record, by its two numbers.
pub fn recorded([outcome, struck]: [u32; 2]) -> Recorded {
    let outcome = match outcome {
        0 => Outcome::Kept,
        1 => Outcome::Cut,
        _ => Outcome::Covered,
    };
    Recorded { outcome, struck }
}

pub fn ask(table: &[u16], small: &Small, place: &Place) -> Result<Asked, Refusal> {
    let mut answer = [0; 3];
    let (words, len) = (table.as_ptr(), table.len());
    accepted(unsafe { raw::gust_ask(words, len, small, place, &mut answer) })?;
    Ok(asked(answer))
}

/// The answer to a question, by its three numbers.
fn asked([any, gust, pages]: [u32; 3]) -> Asked {
    let gust = (any == 1).then_some(gust);
    Asked { gust, pages }
}

/// Answers each row's question in its place.
pub fn ask_sheet(table: &[u16], small: &Small, rows: &mut [Row]) -> Result<(), Refusal> {
    let (words, len) = (table.as_ptr(), table.len());
    let (sheet, count) = (rows.as_mut_ptr(), rows.len());
    accepted(unsafe { raw::gust_ask_sheet(words, len, small, sheet, count) })
}

pub fn count(table: &[u16], small: &Small) -> Result<Counted, Refusal> {
    let mut answer = [0; 4];
    accepted(unsafe { raw::gust_count(table.as_ptr(), table.len(), small, &mut answer) })?;
    let [accepted, held, struck, covered] = answer;
    Ok(Counted {
        accepted,
        held,
        struck,
        covered,
    })
}

pub fn save(table: &[u16], small: &Small, image: &mut [u8]) -> Result<(), Refusal> {
    let (words, len) = (table.as_ptr(), table.len());
    accepted(unsafe { raw::gust_save(words, len, small, image.as_mut_ptr(), image.len()) })
}

pub fn load(image: &[u8], table: &mut [u16], small: &mut Small) -> Result<(), Refusal> {
    let (words, len) = (table.as_mut_ptr(), table.len());
    accepted(unsafe { raw::gust_load(image.as_ptr(), image.len(), words, len, small) })
}

/// Makes the strip that is all nothing.
pub fn strip_clear(segments: &mut [u32], count: &mut u32) -> Result<(), Refusal> {
    accepted(unsafe { raw::gust_strip_clear(segments.as_mut_ptr(), segments.len(), count) })
}

/// Raises each of the days to the gust, if that is greater.
pub fn strip_record(
    segments: &mut [u32],
    count: &mut u32,
    days: &Days,
    gust: u32,
) -> Result<(), Refusal> {
    let (words, len) = (segments.as_mut_ptr(), segments.len());
    accepted(unsafe { raw::gust_strip_record(words, len, count, days, gust) })
}

/// The strongest gust of the days, `None` for nothing.
pub fn strip_ask(segments: &[u32], count: u32, days: &Days) -> Result<Option<u32>, Refusal> {
    let mut answer = [0; 2];
    let (words, len) = (segments.as_ptr(), segments.len());
    accepted(unsafe { raw::gust_strip_ask(words, len, count, days, &mut answer) })?;
    let [any, gust] = answer;
    Ok((any == 1).then_some(gust))
}

#[cfg(test)]
mod tests {
    use super::*;

    /// A refused row says so, and the rest are still answered; a sheet of 33 rows is left as it was.
    #[test]
    fn a_sheet_of_questions() {
        let mut table = vec![7; 180 * PAGE_WORDS];
        let mut small = [9; 5];
        assert_eq!(clear(&mut table, &mut small), Ok(()));
        let storm = [10, 19, 10, 19, 7_305, 7_314];
        assert!(record(&mut table, &mut small, &storm, 250).is_ok());
        let mut rows = [storm, [5, 4, 0, 0, 0, 0], [20, 25, 0, 9, 0, 9]].map(Row::new);
        rows[1].pages = 7;
        assert_eq!(ask_sheet(&table, &small, &mut rows), Ok(()));
        for row in rows {
            assert_eq!(row.answer(), ask(&table, &small, &row.place));
        }
        assert_eq!([rows[0].gust, rows[1].refusal, rows[1].pages], [250, 2, 0]);
        let mut long = [rows[1]; MOST_ROWS + 1];
        assert_eq!(ask_sheet(&table, &small, &mut long), Err(Refusal(11)));
        assert_eq!(long, [rows[1]; MOST_ROWS + 1]);
        assert_eq!(ask_sheet(&table[1..], &small, &mut long[1..]), Ok(()));
        assert!(long[1..].iter().all(|row| row.answer() == Err(Refusal(1))));
    }

    /// The worked example of the rules (9.1), but for its lines.
    #[test]
    fn a_day_at_the_counter() {
        let mut table = vec![7; 180 * PAGE_WORDS];
        let mut small = [9; 5];
        assert_eq!(clear(&mut table, &mut small), Ok(()));
        let mut add = |ends: Place, gust| record(&mut table, &mut small, &ends, gust);
        let said = |outcome, struck| Ok(Recorded { outcome, struck });
        let first = [10, 19, 10, 19, 7_305, 7_314];
        assert_eq!(add(first, 250), said(Outcome::Kept, 0));
        let wider = [10, 29, 10, 19, 7_305, 7_314];
        assert_eq!(add(wider, 250), said(Outcome::Kept, 1));
        let across = [15, 35, 10, 19, 7_305, 7_314];
        assert_eq!(add(across, 250), said(Outcome::Cut, 0));
        let inside = [12, 18, 12, 18, 7_306, 7_307];
        assert_eq!(add(inside, 100), said(Outcome::Covered, 0));
        assert_eq!(add([5, 4, 0, 0, 7_305, 7_305], 1), Err(Refusal(2)));
        assert_eq!(add(first, 65_536), Err(Refusal(3)));
        let nothing = Asked {
            gust: None,
            pages: 1,
        };
        assert_eq!(
            ask(&table, &small, &[36, 40, 10, 19, 7_305, 7_314]),
            Ok(nothing)
        );
        let counts = Counted {
            accepted: 4,
            held: 2,
            struck: 1,
            covered: 1,
        };
        assert_eq!(count(&table, &small), Ok(counts));
        let mut image = vec![0; image_bytes(180)];
        assert_eq!(save(&table, &small, &mut image), Ok(()));
        let (mut copy, mut other) = (vec![0; table.len()], [0; 5]);
        assert_eq!(load(&image, &mut copy, &mut other), Ok(()));
        assert!(copy == table && other == small);
        assert_eq!(load(&image[1..], &mut copy, &mut other), Err(Refusal(7)));
        assert_eq!(count(&table, &[65_536, small[1], 4, 1, 1]), Err(Refusal(4)));
    }

    /// A yard's days.
    #[test]
    fn a_yard_by_days() {
        let (mut segments, mut count) = ([7; STRIP_WORDS], 9);
        let year = [0, 365];
        assert_eq!(strip_ask(&segments, count, &year), Err(Refusal(4)));
        assert_eq!(strip_clear(&mut segments, &mut count), Ok(()));
        let all = segments[0];
        assert_eq!((count, all & 0xffff, segments[1]), (1, 0, 7));
        assert_eq!(strip_ask(&segments, count, &year), Ok(None));
        let mut add = |days, gust| strip_record(&mut segments, &mut count, &days, gust);
        assert_eq!(add([5, 9], 20), Ok(()));
        assert_eq!(add([8, 12], 0), Ok(()));
        assert_eq!(add([3, 2], 1), Err(Refusal(2)));
        assert_eq!(add([3, 65_536], 1), Err(Refusal(2)));
        assert_eq!(add([3, 4], 65_536), Err(Refusal(3)));
        let words = [4 << 16, 9 << 16 | 21, 12 << 16 | 1, all];
        assert_eq!((&segments[..4], count), (&words[..], 4));
        assert_eq!(strip_ask(&segments, count, &[10, 40]), Ok(Some(0)));
        assert_eq!(strip_ask(&segments, count, &[0, 365]), Ok(Some(20)));
        assert_eq!(strip_ask(&segments[1..], count, &year), Err(Refusal(4)));
    }
}
