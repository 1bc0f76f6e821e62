//! The proved library beside the second program: shared by the comparisons (tests/) and the timing (main.rs).
pub mod runs;
pub mod twice;

use second::{clear, record_sound, SmallRecord, LIMITS, PAGE_WORDS};

/// All the ground and all the days.
pub const WHOLE: [u32; 6] = [0, LIMITS[0], 0, LIMITS[1], 0, LIMITS[2]];

/// All dates that could be typed, year, month and day, from before the calendar's first to after its last, in order:
/// those that it lacks are among them.
pub fn all_dates() -> impl Iterator<Item = (u32, u32, u32)> {
    (1879..=2040)
        .flat_map(|year| (0..=13).map(move |month| (year, month)))
        .flat_map(|(year, month)| (0..=32).map(move |day| (year, month, day)))
}

/// A small generator of numbers, so that a run can be repeated from its seed.
pub struct Seed(pub u64);

impl Seed {
    /// The seed of one run of many.
    pub fn of(run: u64) -> Self {
        Seed((run + 1).wrapping_mul(0x9e37_79b9_7f4a_7c15) | 1)
    }

    pub fn below(&mut self, n: u32) -> u32 {
        self.0 ^= self.0 << 13;
        self.0 ^= self.0 >> 7;
        self.0 ^= self.0 << 17;
        (self.0 >> 33) as u32 % n
    }

    pub fn one_in(&mut self, n: u32) -> bool {
        self.below(n) == 0
    }

    pub fn pick<T: Copy>(&mut self, from: &[T]) -> T {
        from[self.below(from.len() as u32) as usize]
    }
}

/// Fills a table and a small record with anything: mostly small numbers, which look like levels, counts and pages.
pub fn noise(table: &mut [u16], small: &mut [u32; 5], seed: &mut Seed) {
    seed.0 |= 1;
    let most = seed.pick(&[3, 9, 1_300, 65_536]);
    table.fill_with(|| (seed.below(most) * seed.below(2)) as u16);
    small.fill_with(|| seed.below(most.min(20)));
}

/// A box and a gust.
pub type Record = ([u32; 6], u32);

/// How the records of a book lie: the ground and days that they are spread over, and their greatest lengths.
pub struct Spread {
    pub ground: u32,
    pub days: u32,
    pub side: u32,
    pub weeks: u32,
}

pub const SPARSE: Spread = Spread {
    ground: 4_000,
    days: 58_000,
    side: 40,
    weeks: 60,
};
pub const DENSE: Spread = Spread {
    ground: 30,
    days: 30,
    side: 12,
    weeks: 12,
};

impl Spread {
    /// A box somewhere in the spread.
    pub fn place(&self, seed: &mut Seed) -> [u32; 6] {
        let mut range = |from, long| {
            let low = seed.below(from);
            [low, low + seed.below(long)]
        };
        let (e, n) = (range(self.ground, self.side), range(self.ground, self.side));
        let d = range(self.days, self.weeks);
        [e[0], e[1], n[0], n[1], d[0], d[1]]
    }

    pub fn record(&self, seed: &mut Seed) -> Record {
        (self.place(seed), seed.below(1_201))
    }

    /// A question of about so many parts in a million of the volume that the records lie in.
    pub fn question(&self, parts: u32, seed: &mut Seed) -> [u32; 6] {
        let (ground, days) = (self.ground + self.side, self.days + self.weeks);
        part_of([ground, ground, days], parts, seed)
    }
}

/// A box that has to do with an earlier one: the same, moved along one axis, inside it, or around it.
pub fn related(old: [u32; 6], seed: &mut Seed) -> [u32; 6] {
    let mut ends = old;
    let axis = seed.below(3) as usize;
    let (low, high) = (ends[2 * axis], ends[2 * axis + 1]);
    let part = 1 + seed.below(high - low + 1);
    let (low, high) = match seed.below(5) {
        0 => (low, high),
        1 => (low + part, high + part),
        2 => (low.saturating_sub(part), high.saturating_sub(part)),
        3 => ((low + part).min(high), high),
        _ => (low.saturating_sub(part), high + part),
    };
    let high = high.min(LIMITS[axis]);
    (ends[2 * axis], ends[2 * axis + 1]) = (low.min(high), high);
    ends
}

/// A question of about so many parts in a million of the whole volume, somewhere in it.
pub fn question(parts: u32, seed: &mut Seed) -> [u32; 6] {
    part_of(LIMITS.map(|limit| limit + 1), parts, seed)
}

fn part_of(lengths: [u32; 3], parts: u32, seed: &mut Seed) -> [u32; 6] {
    let side = (f64::from(parts) / 1e6).cbrt();
    let [e, n, d] = lengths.map(|limit| {
        let long = ((f64::from(limit) * side) as u32).clamp(1, limit);
        let low = seed.below(limit - long + 1);
        [low, low + long - 1]
    });
    [e[0], e[1], n[0], n[1], d[0], d[1]]
}

/// A book of so many pages with up to so many records, and the records that it accepted.
pub fn book(
    pages: usize,
    most: usize,
    spread: &Spread,
    seed: &mut Seed,
) -> (Vec<u16>, SmallRecord, Vec<Record>) {
    let mut table = vec![0; pages * PAGE_WORDS];
    let mut small = SmallRecord::EMPTY;
    clear(&mut table, &mut small).expect("a table of whole pages is cleared");
    let mut accepted = Vec::new();
    while accepted.len() < most {
        let (place, gust) = spread.record(seed);
        if record_sound(&mut table, &mut small, place.into(), gust).is_err() {
            break;
        }
        accepted.push((place, gust));
    }
    (table, small, accepted)
}

/// A spoilt table whose every page has one entry, which names the next page, one level lower, and asks for it to be opened.
pub fn chain(pages: usize) -> (Vec<u16>, [u32; 5]) {
    let mut table = vec![0; pages * PAGE_WORDS];
    for p in 0..pages {
        let page = &mut table[p * PAGE_WORDS..][..PAGE_WORDS];
        page[0] = (pages - p) as u16;
        page[1] = 1;
        // A box that the question touches but does not cover, with a strongest box elsewhere.
        page[2..8].copy_from_slice(&WHOLE.map(|end| end as u16));
        page[8] = 7;
        page[10] = (p + 1) as u16;
        page[11..17].copy_from_slice(&[9, 9, 9, 9, 9, 9]);
    }
    (table, [0, pages as u32, 0, 0, 0])
}

/// An index entry for a page below which only one record lies.
fn lone_entry(place: [u16; 6], gust: u16, child: u16) -> Vec<u16> {
    [&place[..], &[gust, gust, child], &place, &place].concat()
}

/// A page for each level from `levels` down to the leaf, with one record in all.
fn put_chain(table: &mut [u16], top: usize, levels: usize, place: [u16; 6], gust: u16) {
    for k in 0..levels {
        let page = &mut table[(top + k) * PAGE_WORDS..][..PAGE_WORDS];
        (page[0], page[1]) = ((levels - k) as u16, 1);
        if k + 1 < levels {
            let entry = lone_entry(place, gust, (top + k + 1) as u16);
            page[2..23].copy_from_slice(&entry);
        } else {
            page[2..8].copy_from_slice(&place);
            page[8] = gust;
        }
    }
}

/// A well-formed book of 4,096 pages: below the root two chains of so many pages, each of one record.
pub fn two_chains(below: usize, places: [[u16; 6]; 2], gust: u16) -> (Vec<u16>, [u32; 5]) {
    let mut table = vec![0; 4_096 * PAGE_WORDS];
    (table[0], table[1]) = (below as u16 + 1, 2);
    for (k, place) in places.into_iter().enumerate() {
        let top = 1 + k * below;
        put_chain(&mut table, top, below, place, gust);
        table[2 + 21 * k..][..21].copy_from_slice(&lone_entry(place, gust, top as u16));
    }
    (table, [0, below as u32 + 1, 2, 0, 0])
}
