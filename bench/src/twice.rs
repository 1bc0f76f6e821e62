//! Every call made twice, by the proved library and by the second program, each on memory of its own. After every call
//! the number returned, the answer's numbers, all words of the table, the small record and the image are the same, and a
//! refusal has changed none of them.
use crate::{noise, Seed};
use gustbook::raw;
use second::{Refusal, SmallRecord, Tally, Verdict};
use std::fmt;

/// All memory that is lent to a book's calls.
#[derive(Clone, PartialEq, Eq)]
pub struct Lent {
    pub table: Vec<u16>,
    pub small: [u32; 5],
    pub image: Vec<u8>,
}

impl Lent {
    /// Memory for so many pages, with noise in it.
    pub fn new(pages: usize) -> Self {
        let mut lent = Lent {
            table: vec![0; pages * gustbook::PAGE_WORDS],
            small: [0; 5],
            image: vec![0xa5; gustbook::image_bytes(pages)],
        };
        noise(&mut lent.table, &mut lent.small, &mut Seed(pages as u64));
        lent
    }

    fn copy_from(&mut self, other: &Lent) {
        self.table.clone_from(&other.table);
        self.small = other.small;
        self.image.clone_from(&other.image);
    }
}

/// A call, or an accident that befalls the memory of both sides alike.
#[derive(Clone, Debug, PartialEq, Eq)]
pub enum Call {
    Clear,
    Record([u32; 6], u32),
    /// Without the pass over the table: only in runs without accidents.
    RecordSound([u32; 6], u32),
    Ask([u32; 6]),
    Count,
    Save,
    Load,
    /// A word of the table, a number of the small record, a byte of the image becomes another.
    Word(usize, u16),
    Number(usize, u32),
    Byte(usize, u8),
    /// The table or the image gets another length.
    Words(usize),
    Bytes(usize),
    /// Two pages change places.
    Exchange(usize, usize),
    /// Table and small record, or the image up to a byte, are filled from this seed.
    Noise(u64),
    ImageNoise(u64, usize),
}

impl Call {
    pub fn is_accident(&self) -> bool {
        !matches!(
            self,
            Call::Clear
                | Call::Record(..)
                | Call::RecordSound(..)
                | Call::Ask(_)
                | Call::Count
                | Call::Save
                | Call::Load
        )
    }

    fn befall(&self, lent: &mut Lent) {
        match *self {
            Call::Word(at, word) => put(&mut lent.table, at, word),
            Call::Number(at, number) => lent.small[at] = number,
            Call::Byte(at, byte) => put(&mut lent.image, at, byte),
            Call::Words(words) => lent.table.resize(words, 0),
            Call::Bytes(bytes) => lent.image.resize(bytes, 0),
            Call::Exchange(p, q) => {
                let words = gustbook::PAGE_WORDS;
                if (p.max(q) + 1) * words <= lent.table.len() {
                    (0..words).for_each(|k| lent.table.swap(p * words + k, q * words + k));
                }
            }
            Call::Noise(seed) => noise(&mut lent.table, &mut lent.small, &mut Seed(seed)),
            Call::ImageNoise(seed, end) => {
                let mut seed = Seed(seed | 1);
                let bytes = lent.image.iter_mut().take(end);
                bytes.for_each(|byte| *byte = seed.below(256) as u8);
            }
            _ => {}
        }
    }
}

/// Puts something at a place, if there is one.
fn put<T>(all: &mut [T], at: usize, new: T) {
    if let Some(old) = all.get_mut(at) {
        *old = new;
    }
}

/// What the numbers lent for an answer hold before a call.
const UNTOLD: u32 = 0xdead_beef;

/// The number that a call returns, and the numbers lent for its answer afterwards.
#[derive(Clone, Copy, PartialEq, Eq)]
pub struct Said {
    pub number: u32,
    pub answer: [u32; 4],
}

impl fmt::Debug for Said {
    fn fmt(&self, f: &mut fmt::Formatter) -> fmt::Result {
        let told = self.answer.iter().filter(|number| **number != UNTOLD);
        write!(f, "{} {:?}", self.number, told.collect::<Vec<_>>())
    }
}

impl Said {
    fn new(number: u32, told: &[u32]) -> Self {
        let mut answer = [UNTOLD; 4];
        answer[..told.len()].copy_from_slice(told);
        Said { number, answer }
    }

    fn by<T, const N: usize>(result: Result<T, Refusal>, told: impl Fn(T) -> [u32; N]) -> Self {
        match result {
            Ok(answer) => Said::new(0, &told(answer)),
            Err(refusal) => Said::new(refusal.number().into(), &[]),
        }
    }
}

/// Someone who answers the calls.
pub trait Side {
    fn call(&mut self, call: &Call, lent: &mut Lent) -> Said;
}

/// The proved library.
pub struct Proved;

extern "C" {
    fn gust_probe_record_sound(
        table: *mut u16,
        words: usize,
        small: *mut [u32; 5],
        place: *const [u32; 6],
        gust: u32,
        answer: *mut [u32; 2],
    ) -> u32;
}

/// The proved recording without the pass over the table.
///
/// # Safety
/// The book is well-formed.
pub unsafe fn record_sound(
    table: &mut [u16],
    small: &mut [u32; 5],
    place: &[u32; 6],
    gust: u32,
    answer: &mut [u32; 2],
) -> u32 {
    gust_probe_record_sound(table.as_mut_ptr(), table.len(), small, place, gust, answer)
}

impl Side for Proved {
    fn call(&mut self, call: &Call, lent: &mut Lent) -> Said {
        let (table, words) = (lent.table.as_mut_ptr(), lent.table.len());
        let (image, bytes) = (lent.image.as_mut_ptr(), lent.image.len());
        let small = &mut lent.small;
        let (mut two, mut three, mut four) = ([UNTOLD; 2], [UNTOLD; 3], [UNTOLD; 4]);
        // SAFETY: each slice goes with its own length, and nothing that is changed is lent twice. A run with a
        // RecordSound has no accident, so the book is well-formed.
        unsafe {
            match *call {
                Call::Clear => Said::new(raw::gust_clear(table, words, small), &[]),
                Call::Record(place, gust) => {
                    let number = raw::gust_record(table, words, small, &place, gust, &mut two);
                    Said::new(number, &two)
                }
                Call::RecordSound(place, gust) => {
                    let table = &mut lent.table;
                    Said::new(record_sound(table, small, &place, gust, &mut two), &two)
                }
                Call::Ask(place) => {
                    let number = raw::gust_ask(table, words, small, &place, &mut three);
                    Said::new(number, &three)
                }
                Call::Count => Said::new(raw::gust_count(table, words, small, &mut four), &four),
                Call::Save => Said::new(raw::gust_save(table, words, small, image, bytes), &[]),
                Call::Load => Said::new(raw::gust_load(image, bytes, table, words, small), &[]),
                _ => Said::new(0, &[]),
            }
        }
    }
}

/// The second program, with a count of the rules that applied.
#[derive(Default)]
pub struct Second(pub Tally);

/// The second program's small record, from five numbers and back.
pub fn small_record([root, height, accepted, struck, covered]: [u32; 5]) -> SmallRecord {
    SmallRecord {
        root,
        height,
        accepted,
        struck,
        covered,
    }
}

pub fn five(s: &SmallRecord) -> [u32; 5] {
    [s.root, s.height, s.accepted, s.struck, s.covered]
}

fn two(r: second::Recorded) -> [u32; 2] {
    let outcome = match r.verdict {
        Verdict::Kept => 0,
        Verdict::Cut => 1,
        Verdict::Covered => 2,
    };
    [outcome, r.struck]
}

impl Side for Second {
    fn call(&mut self, call: &Call, lent: &mut Lent) -> Said {
        let (table, image) = (&mut lent.table, &mut lent.image);
        let mut small = small_record(lent.small);
        let note: &mut Tally = &mut self.0;
        let said = match *call {
            Call::Clear => Said::by(second::clear(table, &mut small), |()| []),
            Call::Record(place, gust) => {
                let done = second::record_noting(table, &mut small, place.into(), gust, note);
                Said::by(done, two)
            }
            Call::RecordSound(place, gust) => {
                let done = second::record_sound_noting(table, &mut small, place.into(), gust, note);
                Said::by(done, two)
            }
            Call::Ask(place) => Said::by(second::ask(table, &small, place.into()), |a| {
                let gust = a.gust.unwrap_or(0);
                [u32::from(a.gust.is_some()), gust, a.pages]
            }),
            Call::Count => Said::by(second::count(table, &small), |c| {
                [c.accepted, c.held, c.struck, c.covered]
            }),
            Call::Save => Said::by(second::save(table, &small, image), |()| []),
            Call::Load => Said::by(second::load(image, table, &mut small), |()| []),
            _ => Said::new(0, &[]),
        };
        lent.small = five(&small);
        said
    }
}

/// One book, kept by two sides.
pub struct Twice<A, B> {
    pub one: A,
    pub other: B,
    pub lent: Lent,
    theirs: Lent,
    before: Lent,
}

impl<A: Side, B: Side> Twice<A, B> {
    pub fn new(one: A, other: B, lent: Lent) -> Self {
        Twice {
            one,
            other,
            theirs: lent.clone(),
            before: lent.clone(),
            lent,
        }
    }

    /// Makes a call on both sides: what both said, or how they differ.
    pub fn call(&mut self, call: &Call) -> Result<Said, String> {
        if call.is_accident() {
            for lent in [&mut self.lent, &mut self.theirs, &mut self.before] {
                call.befall(lent);
            }
            return Ok(Said::new(0, &[]));
        }
        let said = self.one.call(call, &mut self.lent);
        let other = self.other.call(call, &mut self.theirs);
        if said != other {
            return Err(format!("one side says {said:?}, the other {other:?}"));
        }
        if let Some(what) = differ(&self.lent, &self.theirs) {
            return Err(format!("both say {said:?}, but {what} differs afterwards"));
        }
        let emptied = *call == Call::Load && said.number == 4;
        if said.number == 0 || emptied {
            self.before.copy_from(&self.lent);
        } else if let Some(what) = differ(&self.lent, &self.before) {
            return Err(format!(
                "refused by {}, but {what} was changed",
                said.number
            ));
        }
        Ok(said)
    }
}

/// The first place in which two memories differ.
fn differ(one: &Lent, other: &Lent) -> Option<String> {
    if one == other {
        return None;
    }
    let mut words = one.table.iter().zip(&other.table);
    if let Some(at) = words.position(|(a, b)| a != b) {
        let (page, word) = (at / gustbook::PAGE_WORDS, at % gustbook::PAGE_WORDS);
        return Some(format!("word {word} of page {page}"));
    }
    if one.small != other.small {
        return Some(format!(
            "the small record, {:?}, {:?},",
            one.small, other.small
        ));
    }
    Some("the image".into())
}

/// The calls of a run on a table of so many pages.
#[derive(Clone, Debug, PartialEq, Eq)]
pub struct Run {
    pub pages: usize,
    pub calls: Vec<Call>,
}

impl Run {
    /// The first call that shows a difference, and which.
    pub fn difference(&self, one: impl Side, other: impl Side) -> Option<(usize, String)> {
        let mut twice = Twice::new(one, other, Lent::new(self.pages));
        let mut calls = self.calls.iter().enumerate();
        calls.find_map(|(at, call)| twice.call(call).err().map(|what| (at, what)))
    }

    /// The shortest run found that still fails, on a smaller table if one will do.
    pub fn shortest(self, fails: impl Fn(&Run) -> bool) -> Run {
        let on = |pages, calls| Run { pages, calls };
        let pages = self.pages;
        let calls = shortest(self.calls, |calls| fails(&on(pages, calls.to_vec())));
        let smaller = [1, 3, 5, 10, 20, 50, 180]
            .into_iter()
            .filter(|p| *p < pages);
        let mut runs = smaller.map(|pages| on(pages, calls.clone()));
        runs.find(&fails).unwrap_or_else(|| on(pages, calls))
    }
}

/// The shortest list found by leaving items out, in ever smaller pieces, as long as it still fails.
pub fn shortest<T: Clone>(mut all: Vec<T>, fails: impl Fn(&[T]) -> bool) -> Vec<T> {
    let mut piece = all.len();
    while piece > 0 {
        let (mut at, long) = (0, all.len());
        while at < all.len() {
            let end = (at + piece).min(all.len());
            let rest = [&all[..at], &all[end..]].concat();
            if fails(&rest) {
                all = rest;
            } else {
                at += piece;
            }
        }
        // Single items are tried again and again, until none can be spared.
        if piece > 1 || all.len() == long {
            piece /= 2;
        }
    }
    all
}

/// The two sides that are compared.
pub fn sides() -> (Proved, Second) {
    (Proved, Second::default())
}
