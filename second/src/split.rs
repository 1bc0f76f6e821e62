//! Sharing nine entries between two pages.

use crate::ground::{join, size, Ground};
use crate::page::MOST_ENTRIES;

/// Entries of a page that overflows.
pub(crate) const OVERFULL: usize = MOST_ENTRIES + 1;
/// Fewest entries of a page after a split.
const FEWEST: usize = 3;

/// One of the two groups: its entries' places in the order of placing.
pub(crate) struct Group {
    places: [u8; OVERFULL - FEWEST],
    len: usize,
    cover: Ground,
    size: u64,
}

impl Group {
    fn begin(seed: usize, boxes: &[Ground; OVERFULL]) -> Self {
        let mut places = [0; OVERFULL - FEWEST];
        places[0] = seed as u8;
        let cover = boxes[seed];
        Group {
            places,
            len: 1,
            cover,
            size: size(&cover),
        }
    }

    fn add(&mut self, place: usize, boxes: &[Ground; OVERFULL]) {
        self.places[self.len] = place as u8;
        self.len += 1;
        self.cover = join(&self.cover, &boxes[place]);
        self.size = size(&self.cover);
    }

    /// How many cells the covering box would gain.
    fn growth(&self, ground: &Ground) -> u64 {
        size(&join(&self.cover, ground)) - self.size
    }

    pub(crate) fn places(&self) -> impl ExactSizeIterator<Item = usize> + '_ {
        self.places[..self.len]
            .iter()
            .map(|&place| usize::from(place))
    }
}

/// The places still to be shared out, in order.
fn unplaced(left: u16) -> impl Iterator<Item = usize> {
    (0..OVERFULL).filter(move |place| left & (1 << place) != 0)
}

/// The two groups; the first is the one begun by the seed of lower place.
pub(crate) fn share(boxes: &[Ground; OVERFULL]) -> [Group; 2] {
    let (one, other) = seeds(boxes);
    let mut groups = [Group::begin(one, boxes), Group::begin(other, boxes)];
    let mut left: u16 = ((1 << OVERFULL) - 1) & !(1 << one) & !(1 << other);
    while left != 0 {
        let rest = left.count_ones() as usize;
        if let Some(needy) = groups.iter_mut().find(|group| group.len + rest == FEWEST) {
            unplaced(left).for_each(|place| needy.add(place, boxes));
            break;
        }
        let (place, home) = next(boxes, left, &groups);
        groups[home].add(place, boxes);
        left &= !(1 << place);
    }
    groups
}

/// The pair that would waste most in one page, the first such pair.
fn seeds(boxes: &[Ground; OVERFULL]) -> (usize, usize) {
    let sizes = boxes.map(|ground| size(&ground) as i64);
    let mut worst = (i64::MIN, 0, 0);
    for one in 0..OVERFULL {
        for other in one + 1..OVERFULL {
            let joined = size(&join(&boxes[one], &boxes[other])) as i64;
            // Overlapping boxes waste less than nothing.
            let waste = joined - sizes[one] - sizes[other];
            if waste > worst.0 {
                worst = (waste, one, other);
            }
        }
    }
    (worst.1, worst.2)
}

/// The unplaced entry that cares most which group it joins, and the group it joins.
fn next(boxes: &[Ground; OVERFULL], left: u16, groups: &[Group; 2]) -> (usize, usize) {
    let mut choice = None;
    for place in unplaced(left) {
        let growths = [
            groups[0].growth(&boxes[place]),
            groups[1].growth(&boxes[place]),
        ];
        let difference = growths[0].abs_diff(growths[1]);
        if choice.is_none_or(|(most, _, _)| difference > most) {
            choice = Some((difference, place, growths));
        }
    }
    let (_, place, growths) = choice.expect("an entry is left");
    (place, home(growths, groups))
}

/// The group that grows less, or is smaller, or has fewer entries, or is the first.
fn home(growths: [u64; 2], groups: &[Group; 2]) -> usize {
    let rank = |group: usize| (growths[group], groups[group].size, groups[group].len);
    usize::from(rank(1) < rank(0))
}
