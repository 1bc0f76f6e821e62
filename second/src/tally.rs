//! Counting how often each rule of recording happened.

/// Something that a record did to the book.
#[derive(Clone, Copy, Debug, PartialEq, Eq)]
pub enum Event {
    StruckRecord,
    StruckSubtree,
    CutByLeaf,
    CutByStrongest,
    CutByUnion,
    CoveredByLeaf,
    CoveredByStrongest,
    CoveredByUnion,
    SplitLeaf,
    SplitIndex,
    NewRoot,
    RootCollapsed,
    /// An index root lost all entries and became an empty leaf.
    RootEmptied,
    /// A leaf root lost all entries and stood empty.
    LeafRootEmptied,
}

impl Event {
    pub const ALL: [Event; 14] = [
        Event::StruckRecord,
        Event::StruckSubtree,
        Event::CutByLeaf,
        Event::CutByStrongest,
        Event::CutByUnion,
        Event::CoveredByLeaf,
        Event::CoveredByStrongest,
        Event::CoveredByUnion,
        Event::SplitLeaf,
        Event::SplitIndex,
        Event::NewRoot,
        Event::RootCollapsed,
        Event::RootEmptied,
        Event::LeafRootEmptied,
    ];
}

/// Someone who is told of events; `()` does not listen and costs nothing.
pub trait Note {
    fn note(&mut self, event: Event);

    /// A page of this level was split.
    #[inline(always)]
    fn split_at(&mut self, _level: u16) {}
}

impl Note for () {
    #[inline(always)]
    fn note(&mut self, _: Event) {}
}

/// Levels whose splits are counted apart; the last one stands for all above it too.
const LEVELS: usize = 8;

/// How often each event happened, and how often a page of each level was split.
#[derive(Clone, Copy, Debug, Default, PartialEq, Eq)]
pub struct Tally {
    events: [u64; Event::ALL.len()],
    splits: [u64; LEVELS],
}

impl Tally {
    pub fn times(&self, event: Event) -> u64 {
        self.events[event as usize]
    }

    /// Splits of pages of a level, 1 for leaves.
    pub fn splits(&self, level: usize) -> u64 {
        self.splits[level - 1]
    }

    /// Adds what another has counted.
    pub fn add(&mut self, other: &Tally) {
        let all = self.events.iter_mut().chain(&mut self.splits);
        let more = other.events.iter().chain(&other.splits);
        all.zip(more).for_each(|(sum, times)| *sum += times);
    }
}

impl Note for Tally {
    fn note(&mut self, event: Event) {
        self.events[event as usize] += 1;
    }

    fn split_at(&mut self, level: u16) {
        self.splits[usize::from(level).min(LEVELS) - 1] += 1;
    }
}
