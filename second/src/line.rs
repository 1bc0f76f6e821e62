//! The counter program: lines in, one answer line for each.

use std::io::{self, Write};

use crate::calendar::day_number;
use crate::page::PAGE_WORDS;
use crate::{ask, clear, count, record_sound, GustBox, Refusal, SmallRecord, Verdict};

/// Pages of the program's table.
pub const COUNTER_PAGES: usize = 180;
/// Longest line, its end not counted.
const LINE_BYTES: usize = 80;

/// What a line asks for.
enum Line {
    Add(GustBox, u32),
    Ask(GustBox),
    Count,
}

/// A book that is driven by lines, which may arrive in pieces of any length.
pub struct Counter {
    table: Vec<u16>,
    book: SmallRecord,
    /// The start of a line whose end has not arrived.
    part: [u8; LINE_BYTES],
    /// Bytes of that line so far, which may be more than are kept.
    length: usize,
}

impl Default for Counter {
    fn default() -> Self {
        Self::new()
    }
}

impl Counter {
    pub fn new() -> Self {
        let mut table = vec![0; COUNTER_PAGES * PAGE_WORDS];
        let mut book = SmallRecord::EMPTY;
        clear(&mut table, &mut book).expect("the table's length fits");
        Counter {
            table,
            book,
            part: [0; LINE_BYTES],
            length: 0,
        }
    }

    /// Takes the next bytes and answers every line that ends in them.
    pub fn feed(&mut self, mut bytes: &[u8], out: &mut impl Write) -> io::Result<()> {
        while let Some(end) = bytes.iter().position(|&byte| byte == b'\n') {
            if self.length == 0 {
                self.answer(&bytes[..end], out)?;
            } else {
                self.keep(&bytes[..end]);
                self.answer_part(out)?;
            }
            bytes = &bytes[end + 1..];
        }
        self.keep(bytes);
        Ok(())
    }

    /// Answers a last line that lacks its end.
    pub fn finish(&mut self, out: &mut impl Write) -> io::Result<()> {
        if self.length == 0 {
            return Ok(());
        }
        self.answer_part(out)
    }

    /// Keeps as much of an unfinished line as can matter.
    fn keep(&mut self, bytes: &[u8]) {
        let start = self.length.min(LINE_BYTES);
        let fit = bytes.len().min(LINE_BYTES - start);
        self.part[start..start + fit].copy_from_slice(&bytes[..fit]);
        // A line that is too long stays so, however long it gets.
        self.length = self.length.saturating_add(bytes.len());
    }

    fn answer_part(&mut self, out: &mut impl Write) -> io::Result<()> {
        let length = std::mem::take(&mut self.length);
        if length > LINE_BYTES {
            return write_refusal(Refusal::Line, out);
        }
        let part = self.part;
        self.answer(&part[..length], out)
    }

    /// Answers one whole line.
    fn answer(&mut self, line: &[u8], out: &mut impl Write) -> io::Result<()> {
        match parse(line) {
            Some(Line::Add(ground, gust)) => self.add(ground, gust, out),
            Some(Line::Ask(question)) => self.ask(question, out),
            Some(Line::Count) => self.count(out),
            None => write_refusal(Refusal::Line, out),
        }
    }

    fn add(&mut self, ground: GustBox, gust: u32, out: &mut impl Write) -> io::Result<()> {
        // Nobody else writes to this table, so the book is sound.
        match record_sound(&mut self.table, &mut self.book, ground, gust) {
            Ok(recorded) => {
                let word = match recorded.verdict {
                    Verdict::Kept => "kept",
                    Verdict::Cut => "cut",
                    Verdict::Covered => "covered",
                };
                writeln!(out, "{word} struck {}", recorded.struck)
            }
            Err(refusal) => write_refusal(refusal, out),
        }
    }

    fn ask(&mut self, question: GustBox, out: &mut impl Write) -> io::Result<()> {
        match ask(&self.table, &self.book, question) {
            Ok(answer) => match answer.gust {
                Some(gust) => writeln!(out, "gust {gust} pages {}", answer.pages),
                None => writeln!(out, "nothing pages {}", answer.pages),
            },
            Err(refusal) => write_refusal(refusal, out),
        }
    }

    fn count(&mut self, out: &mut impl Write) -> io::Result<()> {
        match count(&self.table, &self.book) {
            Ok(counts) => writeln!(
                out,
                "accepted {} held {} struck {} covered {}",
                counts.accepted, counts.held, counts.struck, counts.covered
            ),
            Err(refusal) => write_refusal(refusal, out),
        }
    }
}

fn write_refusal(refusal: Refusal, out: &mut impl Write) -> io::Result<()> {
    writeln!(out, "refused {}", refusal.number())
}

/// Reads a line, if it has one of the three forms.
fn parse(line: &[u8]) -> Option<Line> {
    if line.len() > LINE_BYTES {
        return None;
    }
    // Two spaces together part an empty word, which is no number and no date.
    let mut words = line.split(|&byte| byte == b' ');
    let parsed = match words.next()? {
        b"add" => Line::Add(parse_box(&mut words)?, parse_number(words.next()?)?),
        b"ask" => Line::Ask(parse_box(&mut words)?),
        b"count" => Line::Count,
        _ => return None,
    };
    words.next().is_none().then_some(parsed)
}

fn parse_box<'a>(words: &mut impl Iterator<Item = &'a [u8]>) -> Option<GustBox> {
    Some(GustBox {
        east_low: parse_number(words.next()?)?,
        east_high: parse_number(words.next()?)?,
        north_low: parse_number(words.next()?)?,
        north_high: parse_number(words.next()?)?,
        day_low: parse_date(words.next()?)?,
        day_high: parse_date(words.next()?)?,
    })
}

fn parse_number(word: &[u8]) -> Option<u32> {
    if !(1..=5).contains(&word.len()) {
        return None;
    }
    word.iter().try_fold(0, |number, byte| {
        let digit = byte.wrapping_sub(b'0');
        (digit <= 9).then(|| number * 10 + u32::from(digit))
    })
}

/// Reads YYYY-MM-DD.
fn parse_date(word: &[u8]) -> Option<u32> {
    let &[y1, y2, y3, y4, b'-', m1, m2, b'-', d1, d2] = word else {
        return None;
    };
    let year = parse_number(&[y1, y2, y3, y4])?;
    let month = parse_number(&[m1, m2])?;
    let day = parse_number(&[d1, d2])?;
    day_number(year, month, day)
}
