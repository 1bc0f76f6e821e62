//! Boxes of whole cells on three axes: east, north and day.

use crate::Refusal;

/// A box as a page keeps it: low and high end of east, then north, then day.
pub type Ground = [u16; 6];

/// The highest cell of each axis.
pub const LIMITS: [u32; 3] = [4_095, 4_095, 58_438];

/// A box as a caller hands it in; both ends of each range are inside.
#[derive(Clone, Copy, Debug, PartialEq, Eq, Hash)]
pub struct GustBox {
    pub east_low: u32,
    pub east_high: u32,
    pub north_low: u32,
    pub north_high: u32,
    pub day_low: u32,
    pub day_high: u32,
}

impl From<[u32; 6]> for GustBox {
    fn from(ends: [u32; 6]) -> Self {
        let [east_low, east_high, north_low, north_high, day_low, day_high] = ends;
        GustBox {
            east_low,
            east_high,
            north_low,
            north_high,
            day_low,
            day_high,
        }
    }
}

impl GustBox {
    /// The six ends in the order a page keeps them.
    pub fn ends(&self) -> [u32; 6] {
        [
            self.east_low,
            self.east_high,
            self.north_low,
            self.north_high,
            self.day_low,
            self.day_high,
        ]
    }

    /// The box in page words, or the refusal if it is upside down or off the ground.
    pub(crate) fn ground(&self) -> Result<Ground, Refusal> {
        let ends = self.ends();
        for (range, limit) in ends.chunks_exact(2).zip(LIMITS) {
            if range[0] > range[1] || range[1] > limit {
                return Err(Refusal::Box);
            }
        }
        // Every end is now at most its limit, which fits a word.
        Ok(ends.map(|end| end as u16))
    }
}

/// Whether the words are a box that recording would take.
#[inline]
pub(crate) fn is_legal(a: &Ground) -> bool {
    let in_order = (a[0] <= a[1]) & (a[2] <= a[3]) & (a[4] <= a[5]);
    let within = (u32::from(a[1]) <= LIMITS[0])
        & (u32::from(a[3]) <= LIMITS[1])
        & (u32::from(a[5]) <= LIMITS[2]);
    in_order & within
}

/// The smallest box that covers both.
#[inline]
pub(crate) fn join(a: &Ground, b: &Ground) -> Ground {
    [
        a[0].min(b[0]),
        a[1].max(b[1]),
        a[2].min(b[2]),
        a[3].max(b[3]),
        a[4].min(b[4]),
        a[5].max(b[5]),
    ]
}

/// The number of cells; an upside-down range, which only spoilt words have, has none.
#[inline]
pub(crate) fn size(a: &Ground) -> u64 {
    let length = |low: u16, high: u16| (u64::from(high) + 1).saturating_sub(u64::from(low));
    length(a[0], a[1]) * length(a[2], a[3]) * length(a[4], a[5])
}

/// What a held box does to a new one that is no stronger.
#[derive(Clone, Copy, Debug, PartialEq, Eq)]
pub(crate) enum Meeting {
    Apart,
    Cuts(Ground),
    Covers,
}

/// How `held` meets `new`: it takes away a whole slab, all, or nothing.
#[inline]
pub(crate) fn meet(held: &Ground, new: &Ground) -> Meeting {
    let covered = |axis: usize| held[axis] <= new[axis] && new[axis + 1] <= held[axis + 1];
    match (covered(0), covered(2), covered(4)) {
        (true, true, true) => Meeting::Covers,
        (true, true, false) => slab(held, new, 4),
        (true, false, true) => slab(held, new, 2),
        (false, true, true) => slab(held, new, 0),
        _ => Meeting::Apart,
    }
}

/// The cut along one axis that `held` does not cover; a cut needs one end of `new` inside.
fn slab(held: &Ground, new: &Ground, axis: usize) -> Meeting {
    let (low, high) = (held[axis], held[axis + 1]);
    let inside = |end: u16| low <= end && end <= high;
    let mut left = *new;
    if inside(new[axis]) {
        left[axis] = high + 1;
    } else if inside(new[axis + 1]) {
        left[axis + 1] = low - 1;
    } else {
        return Meeting::Apart;
    }
    Meeting::Cuts(left)
}
