//! What the tests share: a small generator of numbers, books, boxes and slow references.

#![allow(dead_code)]

pub mod model;
pub mod slow;

use second::{
    ask, clear, image_length, record_noting, save, Answer, GustBox, Recorded, Refusal, SmallRecord,
    Tally, LIMITS, PAGE_WORDS,
};

/// All the ground and all the days.
pub const WHOLE: [u32; 6] = [0, LIMITS[0], 0, LIMITS[1], 0, LIMITS[2]];

/// Marsaglia's xorshift; a seed gives the same numbers every time.
pub struct Rng(u64);

impl Rng {
    pub fn new(seed: u64) -> Self {
        let mut rng = Rng(seed.wrapping_mul(0x9E37_79B9_7F4A_7C15) | 1);
        (0..8).for_each(|_| {
            rng.next();
        });
        rng
    }

    pub fn next(&mut self) -> u64 {
        self.0 ^= self.0 << 13;
        self.0 ^= self.0 >> 7;
        self.0 ^= self.0 << 17;
        self.0
    }

    /// A number below `end`.
    pub fn below(&mut self, end: u32) -> u32 {
        ((self.next() >> 32) % u64::from(end)) as u32
    }

    pub fn one_in(&mut self, end: u32) -> bool {
        self.below(end) == 0
    }
}

/// A book with its own table.
#[derive(Clone, PartialEq, Eq, Debug)]
pub struct Book {
    pub table: Vec<u16>,
    pub small: SmallRecord,
}

impl Book {
    pub fn new(pages: usize) -> Self {
        let mut book = Book {
            table: vec![7; pages * PAGE_WORDS],
            small: SmallRecord::EMPTY,
        };
        clear(&mut book.table, &mut book.small).unwrap();
        book
    }

    pub fn pages(&self) -> usize {
        self.table.len() / PAGE_WORDS
    }

    pub fn page(&self, number: usize) -> &[u16] {
        &self.table[number * PAGE_WORDS..][..PAGE_WORDS]
    }

    pub fn record(&mut self, ends: [u32; 6], gust: u32) -> Result<Recorded, Refusal> {
        second::record(&mut self.table, &mut self.small, ends.into(), gust)
    }

    pub fn record_noting(
        &mut self,
        ends: [u32; 6],
        gust: u32,
        tally: &mut Tally,
    ) -> Result<Recorded, Refusal> {
        record_noting(&mut self.table, &mut self.small, ends.into(), gust, tally)
    }

    pub fn record_sound(&mut self, ends: [u32; 6], gust: u32) -> Result<Recorded, Refusal> {
        second::record_sound(&mut self.table, &mut self.small, ends.into(), gust)
    }

    pub fn ask(&self, ends: [u32; 6]) -> Result<Answer, Refusal> {
        ask(&self.table, &self.small, GustBox::from(ends))
    }

    pub fn held(&self) -> Option<u32> {
        second::well_formed(&self.table, &self.small).map(|sound| sound.held)
    }

    pub fn image(&self) -> Vec<u8> {
        let mut image = vec![0xAA; image_length(self.pages())];
        save(&self.table, &self.small, &mut image).unwrap();
        image
    }
}

/// How the boxes of a random book lie.
#[derive(Clone, Copy, Debug)]
pub enum Style {
    /// Much overlap on a small ground.
    Dense,
    /// Little boxes on the whole ground.
    Sparse,
    /// Boxes that run through the ground on two axes, so that they cut each other.
    Slabs,
    /// Earlier boxes, a little larger or smaller.
    Nested,
    /// Single cells on a line.
    Cells,
    /// All of these in turn.
    Mixed,
    /// Little boxes, and now and then one that takes in a whole region.
    Sweeps,
    /// Regions far apart, each filled with cells and now and then swept as a whole.
    Regions,
}

pub const STYLES: [Style; 8] = [
    Style::Dense,
    Style::Sparse,
    Style::Slabs,
    Style::Nested,
    Style::Cells,
    Style::Mixed,
    Style::Sweeps,
    Style::Regions,
];

fn range(rng: &mut Rng, ground: u32, longest: u32) -> [u32; 2] {
    let low = rng.below(ground);
    let high = (low + rng.below(longest)).min(ground - 1);
    [low, high]
}

fn boxed(axes: [[u32; 2]; 3]) -> [u32; 6] {
    let [[a, b], [c, d], [e, f]] = axes;
    [a, b, c, d, e, f]
}

/// The next box of a book of that style.
pub fn next_box(rng: &mut Rng, style: Style, earlier: &[([u32; 6], u32)]) -> [u32; 6] {
    match style {
        Style::Dense => boxed([(); 3].map(|()| range(rng, 24, 8))),
        Style::Sparse => boxed(LIMITS.map(|limit| range(rng, limit + 1, 60))),
        Style::Slabs => slab(rng),
        Style::Nested => nested(rng, earlier),
        Style::Cells => {
            let east = rng.below(4_096);
            [east, east, 3, 3, 9, 9]
        }
        Style::Mixed => {
            let styles = [Style::Dense, Style::Slabs, Style::Nested, Style::Dense];
            let style = styles[rng.below(4) as usize];
            next_box(rng, style, earlier)
        }
        Style::Sweeps => sweep(rng),
        Style::Regions => region(rng),
    }
}

fn slab(rng: &mut Rng) -> [u32; 6] {
    let thin = rng.below(3) as usize;
    let mut axes = [[0, 15]; 3];
    axes[thin] = range(rng, 16, 6);
    if rng.one_in(3) {
        let other = (thin + 1 + rng.below(2) as usize) % 3;
        axes[other] = range(rng, 16, 12);
    }
    boxed(axes)
}

fn nested(rng: &mut Rng, earlier: &[([u32; 6], u32)]) -> [u32; 6] {
    if earlier.is_empty() || rng.one_in(4) {
        return boxed([(); 3].map(|()| range(rng, 40, 20)));
    }
    let back = rng.below(earlier.len().min(40) as u32) as usize;
    let mut ends = earlier[earlier.len() - 1 - back].0;
    for axis in [0, 2, 4] {
        let low = (ends[axis] + rng.below(5)).saturating_sub(2);
        let high = (ends[axis + 1] + rng.below(5)).saturating_sub(2);
        ends[axis] = low.min(high).min(4_095);
        ends[axis + 1] = low.max(high).min(4_095);
    }
    ends
}

fn sweep(rng: &mut Rng) -> [u32; 6] {
    let longest = match rng.below(60) {
        0 => return WHOLE,
        1..=2 => 400,
        3..=6 => 150,
        _ => 9,
    };
    let [east, north, day] = [(); 3].map(|()| range(rng, 400, longest));
    let cut_down = if longest > 9 { 0 } else { day[0] };
    boxed([east, north, [cut_down, day[1].max(cut_down)]])
}

fn region(rng: &mut Rng) -> [u32; 6] {
    let east = 1_000 * rng.below(3);
    match rng.below(50) {
        0 => [east, east + 31, 0, 31, 0, 31],
        1 => [0, 1_031, 0, 31, 0, 31],
        2 => [1_000, LIMITS[0], 0, LIMITS[1], 0, LIMITS[2]],
        3..=5 => {
            let [low, high] = range(rng, 32, 24);
            [east + low, east + high, 0, 31, 0, 31]
        }
        _ => {
            let [[low, high], north, day] = [(); 3].map(|()| range(rng, 32, 3));
            boxed([[east + low, east + high], north, day])
        }
    }
}

/// How many spreads of gusts there are.
pub const SPREADS: u64 = 5;

/// A gust: of one value, of a few, rising with the records so far, or any.
pub fn next_gust(rng: &mut Rng, spread: u32, so_far: usize) -> u32 {
    match spread {
        0 => 100,
        1 => rng.below(4),
        2 => 50 + rng.below(12),
        3 => (so_far as u32 / 2 + rng.below(30)).min(1_200),
        _ => rng.below(1_201),
    }
}

/// An entry for a page below which stands one record alone.
pub fn lone_entry(ends: [u16; 6], gust: u16, child: u16) -> Vec<u16> {
    [&ends[..], &[gust, gust, child], &ends, &ends].concat()
}

pub fn record_entry(ends: [u16; 6], gust: u16) -> Vec<u16> {
    [&ends[..], &[gust], &[0; 14]].concat()
}

/// Writes a page over what stood there.
pub fn put_page(table: &mut [u16], number: usize, level: u16, entries: &[Vec<u16>]) {
    let page = &mut table[number * PAGE_WORDS..][..PAGE_WORDS];
    page.fill(0);
    page[0] = level;
    page[1] = entries.len() as u16;
    for (slot, entry) in page[2..].chunks_exact_mut(21).zip(entries) {
        slot.copy_from_slice(entry);
    }
}

/// A page for each level above one record, the topmost at `top`; the next pages lie below.
pub fn put_chain(table: &mut [u16], top: usize, levels: u16, ends: [u16; 6], gust: u16) {
    let mut number = top;
    for level in (2..=levels).rev() {
        let entry = lone_entry(ends, gust, number as u16 + 1);
        put_page(table, number, level, &[entry]);
        number += 1;
    }
    put_page(table, number, 1, &[record_entry(ends, gust)]);
}

/// The highest book of 4,096 pages that still takes a record: two chains below the root.
pub fn tallest_book(left: ([u16; 6], u16), right: ([u16; 6], u16)) -> Book {
    let levels = 1_364;
    let mut book = Book::new(4_096);
    put_chain(&mut book.table, 1, levels, left.0, left.1);
    put_chain(&mut book.table, 1_365, levels, right.0, right.1);
    let entries = [
        lone_entry(left.0, left.1, 1),
        lone_entry(right.0, right.1, 1_365),
    ];
    put_page(&mut book.table, 0, levels + 1, &entries);
    book.small.height = 1_365;
    book.small.accepted = 2;
    book
}

/// The strongest gust by one pass over all that was ever accepted.
pub fn plain_answer(accepted: &[([u32; 6], u32)], question: [u32; 6]) -> Option<u32> {
    let touching = accepted.iter().filter(|(ends, _)| {
        [0, 2, 4]
            .iter()
            .all(|&axis| ends[axis] <= question[axis + 1] && question[axis] <= ends[axis + 1])
    });
    touching.map(|&(_, gust)| gust).max()
}
