//! A sheet of questions, each answered in its own row.

use crate::{ask, GustBox, Refusal, SmallRecord};

/// The most rows of a sheet.
pub const MOST_ROWS: usize = 32;

/// A question, and the places for its answer.
#[derive(Clone, Copy, Debug, PartialEq, Eq, Hash)]
pub struct Row {
    pub question: GustBox,
    /// Why this question was refused, if it was.
    pub refusal: Option<Refusal>,
    /// The strongest gust, or `None` where nothing was recorded.
    pub gust: Option<u32>,
    /// Pages opened; none for a refused question.
    pub pages: u32,
}

/// Answers each question in its row. Refuses 11, and then no row is touched.
pub fn ask_sheet(table: &[u16], book: &SmallRecord, rows: &mut [Row]) -> Result<(), Refusal> {
    if rows.len() > MOST_ROWS {
        return Err(Refusal::Sheet);
    }
    for row in rows {
        let said = ask(table, book, row.question);
        row.refusal = said.err();
        row.gust = said.ok().and_then(|answer| answer.gust);
        row.pages = said.map_or(0, |answer| answer.pages);
    }
    Ok(())
}
