//! Runs of calls made from a seed, each call chosen as the book then stands.
use crate::twice::{small_record, Call, Lent, Said};
use crate::{question, related, Record, Seed, Spread, WHOLE};
use second::{well_formed, LIMITS, PAGE_WORDS};
use std::collections::VecDeque;

/// What a run is like.
pub struct Style {
    pub name: &'static str,
    /// The pages of a book: any number up to the one picked.
    pub pages: &'static [u32],
    pub spread: &'static Spread,
    pub calls: usize,
    /// One in so many records is wide, and strikes much.
    pub wide: u32,
    /// An accident after every so many calls, or never.
    pub accidents: Option<u32>,
}

impl Style {
    /// The pages of a run's book.
    pub fn pages(&self, seed: &mut Seed) -> usize {
        let most = seed.pick(self.pages);
        match most {
            4_096 => 4_096,
            most => 1 + seed.below(most) as usize,
        }
    }
}

/// A record that strikes much: over the whole ground, but weak, or it would cover all that comes later; or over a part.
fn wide(place: [u32; 6], gust: u32, seed: &mut Seed) -> Record {
    if seed.one_in(3) {
        return (WHOLE, gust / 4);
    }
    let parts = seed.pick(&[8, 30, 100]);
    let mut ends = place;
    for (axis, limit) in LIMITS.into_iter().enumerate() {
        let more = seed.below(limit / parts + 2);
        ends[2 * axis] = place[2 * axis].saturating_sub(more);
        ends[2 * axis + 1] = (place[2 * axis + 1] + more).min(limit);
    }
    (ends, 900 + gust / 4)
}

/// What can befall lent memory between two calls.
#[derive(Clone, Copy, PartialEq, Eq)]
enum Accident {
    ImageLength,
    ImageByte,
    TrailerByte,
    ImageNoise,
    TableLength,
    TooManyPages,
    Noise,
    Exchange,
    /// As if 1,000,000 records had been accepted.
    Spent,
    Number,
    Word,
}

use Accident::*;

/// All of them, the likelier ones more than once.
const ACCIDENTS: [Accident; 20] = [
    ImageLength,
    ImageByte,
    TrailerByte,
    TrailerByte,
    ImageNoise,
    TableLength,
    TooManyPages,
    Noise,
    Exchange,
    Spent,
    Number,
    Number,
    Word,
    Word,
    Word,
    Word,
    Word,
    Word,
    Word,
    Word,
];

impl Accident {
    fn is_to_image(self) -> bool {
        matches!(self, ImageLength | ImageByte | TrailerByte | ImageNoise)
    }

    fn is_to_length(self) -> bool {
        matches!(self, TableLength | TooManyPages)
    }
}

/// The latest records, many of which are still held.
fn recent(records: &[Record]) -> &[Record] {
    &records[records.len().saturating_sub(100)..]
}

/// Chooses the calls of a run.
pub struct Chooser<'a> {
    style: &'a Style,
    seed: Seed,
    earlier: Vec<Record>,
    waiting: VecDeque<Call>,
    full: bool,
}

impl<'a> Chooser<'a> {
    pub fn new(style: &'a Style, seed: Seed) -> Self {
        let waiting = VecDeque::from([Call::Clear]);
        Chooser {
            style,
            seed,
            earlier: Vec::new(),
            waiting,
            full: false,
        }
    }

    pub fn next(&mut self, lent: &Lent) -> Call {
        if self.waiting.is_empty() {
            match self.style.accidents {
                Some(often) if self.seed.one_in(often) => self.accident(lent),
                _ => self.plain_call(),
            }
        }
        self.waiting.pop_front().expect("something was chosen")
    }

    /// Takes note of what became of a call.
    pub fn told(&mut self, call: &Call, said: &Said) {
        self.full = said.number == 6;
        if let Call::Record(place, gust) | Call::RecordSound(place, gust) = call {
            if said.number == 0 {
                self.earlier.push((*place, *gust));
            }
        }
    }

    fn plain_call(&mut self) {
        let seed = &mut self.seed;
        if self.full && seed.one_in(8) {
            let gust = seed.below(1_201);
            let call = if seed.one_in(2) {
                Call::Clear
            } else {
                Call::Record(WHOLE, gust)
            };
            return self.waiting.push_back(call);
        }
        let call = match seed.below(100) {
            0 => Call::Count,
            1 => Call::Save,
            2 if self.style.accidents.is_none() => {
                self.waiting.extend([Call::Save, Call::Clear]);
                Call::Load
            }
            3..40 => Call::Ask(self.asked()),
            _ => {
                let (place, gust) = self.record();
                // The pass over a large table costs most of the time, and was seen on small ones.
                let sound = self.style.accidents.is_none() && self.seed.below(8) > 0;
                match sound {
                    true => Call::RecordSound(place, gust),
                    false => Call::Record(place, gust),
                }
            }
        };
        self.waiting.push_back(call);
    }

    /// A fresh record, or one that has to do with an earlier one; gusts are often equal, calm or the strongest.
    fn record(&mut self) -> Record {
        let seed = &mut self.seed;
        let (mut place, mut gust) = self.style.spread.record(seed);
        if !self.earlier.is_empty() && seed.one_in(2) {
            let (old, v) = seed.pick(recent(&self.earlier));
            place = related(old, seed);
            gust = seed.pick(&[v, v.saturating_sub(1), (v + 1).min(1_200), gust]);
        }
        if seed.one_in(self.style.wide) {
            (place, gust) = wide(place, gust, seed);
        }
        match seed.below(100) {
            0..6 => gust = 0,
            6..12 => gust = 1_200,
            12 | 13 => gust = seed.pick(&[1_201, 65_535, 65_536, 65_636, u32::MAX]),
            _ => {}
        }
        (self.perhaps_illegal(place), gust)
    }

    fn asked(&mut self) -> [u32; 6] {
        let seed = &mut self.seed;
        let place = match seed.below(3) {
            0 if !self.earlier.is_empty() => {
                let (old, _) = seed.pick(recent(&self.earlier));
                related(old, seed)
            }
            1 => self.style.spread.place(seed),
            _ => question(seed.pick(&[1, 1_000, 100_000, 999_000]), seed),
        };
        self.perhaps_illegal(place)
    }

    /// Now and then a number out of range, some of which would be legal if they were cut to 16 bits.
    fn perhaps_illegal(&mut self, mut place: [u32; 6]) -> [u32; 6] {
        let seed = &mut self.seed;
        if seed.one_in(40) {
            let at = seed.below(6) as usize;
            let old = place[at];
            place[at] = seed.pick(&[
                LIMITS[0] + 1,
                LIMITS[2] + 1,
                65_535,
                65_536 + old,
                u32::MAX,
                old + 1,
            ]);
        }
        place
    }

    /// Saves the book, spoils it or its image, makes every call on it, and loads what was saved.
    fn accident(&mut self, lent: &Lent) {
        self.waiting.push_back(Call::Save);
        let kind = self.seed.pick(&ACCIDENTS);
        for _ in 0..1 + self.seed.below(3) * self.seed.below(3) {
            self.spoil(kind, lent);
        }
        if !kind.is_to_image() {
            self.every_call(kind);
        }
        let pages = lent.table.len() / PAGE_WORDS;
        if kind.is_to_length() {
            self.waiting.push_back(Call::Words(pages * PAGE_WORDS));
        }
        self.waiting.push_back(Call::Load);
        if kind.is_to_image() {
            let bytes = gustbook::image_bytes(pages);
            self.waiting.extend([Call::Bytes(bytes), Call::Load]);
        }
    }

    /// Calls of every kind, mostly questions, which alone are answered in a damaged book.
    fn every_call(&mut self, kind: Accident) {
        for _ in 0..8 {
            let (place, gust) = self.record();
            let question = self.asked();
            let call = match self.seed.below(12) {
                0 => Call::Count,
                // A spent book must not be what is loaded again.
                1 if kind != Spent => Call::Save,
                2 | 3 => Call::Record(place, gust),
                4 if self.seed.one_in(8) => Call::Clear,
                _ => Call::Ask(question),
            };
            self.waiting.push_back(call);
        }
    }

    fn spoil(&mut self, kind: Accident, lent: &Lent) {
        let seed = &mut self.seed;
        let (words, bytes) = (lent.table.len(), lent.image.len());
        let pages = (words / PAGE_WORDS) as u32;
        let call = match kind {
            ImageLength => Call::Bytes(seed.pick(&[bytes - 1, bytes + 1, bytes + 340, 22, 0, 362])),
            ImageByte => Call::Byte(seed.below(bytes as u32) as usize, seed.below(256) as u8),
            TrailerByte => Call::Byte(bytes - 1 - seed.below(22) as usize, seed.below(4) as u8),
            ImageNoise => {
                // All of it, or all but the trailer.
                let end = seed.pick(&[bytes, bytes - 22]);
                Call::ImageNoise(u64::from(seed.below(u32::MAX)), end)
            }
            TableLength => Call::Words(seed.pick(&[words - 1, words + 1, words + PAGE_WORDS, 0])),
            TooManyPages => Call::Words(words + PAGE_WORDS * 4_096),
            Noise => Call::Noise(u64::from(seed.below(u32::MAX))),
            Exchange => Call::Exchange(seed.below(pages) as usize, seed.below(pages) as usize),
            Spent => return self.spend(lent),
            Number => {
                let (at, step) = (seed.below(5) as usize, seed.pick(&[1, u32::MAX, 65_536, 9]));
                Call::Number(at, lent.small[at].wrapping_add(step))
            }
            Word => self.another_word(lent),
        };
        self.waiting.push_back(call);
    }

    /// A word in a page that is in use, most often changed to one nearby.
    fn another_word(&mut self, lent: &Lent) -> Call {
        let seed = &mut self.seed;
        let used = lent.table.chunks(PAGE_WORDS).filter(|page| page[0] != 0);
        let pages = [used.count().max(1), lent.table.len() / PAGE_WORDS];
        let most = seed.pick(&pages) as u32;
        let page = seed.below(most) as usize;
        // The words that say most stand at the start of a page.
        let most = seed.pick(&[11, 23, PAGE_WORDS as u32]);
        let word = seed.below(most) as usize;
        let at = page * PAGE_WORDS + word;
        let step = seed.pick(&[1, u16::MAX, 7, 60_000]);
        Call::Word(at, lent.table[at].wrapping_add(step))
    }

    /// As if 1,000,000 records had been accepted: the rest counts as covered.
    fn spend(&mut self, lent: &Lent) {
        if let Some(sound) = well_formed(&lent.table, &small_record(lent.small)) {
            let [_, _, _, struck, _] = lent.small;
            let covered = 1_000_000 - struck - sound.held;
            self.waiting.push_back(Call::Number(2, 1_000_000));
            self.waiting.push_back(Call::Number(4, covered));
        }
    }
}
