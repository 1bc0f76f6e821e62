//! Slow and direct readings of "well-formed" and of asking, over any words at all.

use second::{GustBox, SmallRecord};

const P: usize = 170;

fn entry(table: &[u16], page: usize, place: usize) -> &[u16] {
    &table[page * P + 2 + 21 * place..][..21]
}

fn size(ends: &[u16]) -> u64 {
    let length = |x: usize| (u64::from(ends[x + 1]) + 1).saturating_sub(u64::from(ends[x]));
    length(0) * length(2) * length(4)
}

struct Visit<'a> {
    table: &'a [u16],
    root: usize,
    visits: Vec<u32>,
    held: u64,
}

/// Walks from the root as the rules are worded, and counts how often it comes by each page.
pub fn held_if_well_formed(table: &[u16], small: &SmallRecord) -> Option<u64> {
    let pages = table.len() / P;
    let fits = table.len().is_multiple_of(P) && (1..=4096).contains(&pages);
    if !fits || small.root as usize >= pages || small.height < 1 {
        return None;
    }
    let mut visit = Visit {
        table,
        root: small.root as usize,
        visits: vec![0; pages],
        held: 0,
    };
    if !visit.walk(visit.root, small.height) {
        return None;
    }
    for page in 0..pages {
        let words = &table[page * P..][..P];
        let fine = match words[0] {
            0 => visit.visits[page] == 0 && words.iter().all(|&word| word == 0),
            _ => visit.visits[page] == 1,
        };
        if !fine {
            return None;
        }
    }
    let sum = visit.held + u64::from(small.struck) + u64::from(small.covered);
    (small.accepted <= 1_000_000 && sum == u64::from(small.accepted)).then_some(visit.held)
}

impl Visit<'_> {
    fn walk(&mut self, page: usize, level: u32) -> bool {
        self.visits[page] += 1;
        let head = &self.table[page * P..][..2];
        let fewest = match (page == self.root, level) {
            (true, 1) => 0,
            (true, _) => 2,
            _ => 1,
        };
        // A page come by twice is a fault at once, or the walk might take for ever.
        if self.visits[page] > 1 || u32::from(head[0]) != level || !(fewest..=8).contains(&head[1])
        {
            return false;
        }
        let count = usize::from(head[1]);
        let unused = &self.table[page * P + 2 + 21 * count..(page + 1) * P];
        if unused.iter().any(|&word| word != 0) {
            return false;
        }
        (0..count).all(|place| match level {
            1 => self.record(page, place),
            _ => self.child(page, place, level - 1),
        })
    }

    fn record(&mut self, page: usize, place: usize) -> bool {
        self.held += 1;
        let words = entry(self.table, page, place);
        let limits = [4095, 4095, 58438];
        let legal = |x: usize| words[x] <= words[x + 1] && words[x + 1] <= limits[x / 2];
        let blank = words[7..].iter().all(|&word| word == 0);
        [0, 2, 4].into_iter().all(legal) && words[6] <= 1200 && blank
    }

    fn child(&mut self, page: usize, place: usize, level: u32) -> bool {
        let words = entry(self.table, page, place);
        let child = usize::from(words[8]);
        child < self.visits.len() && self.walk(child, level) && exact(self.table, words, child)
    }
}

fn exact(table: &[u16], words: &[u16], child: usize) -> bool {
    let is_leaf = table[child * P] == 1;
    let below: Vec<&[u16]> = (0..usize::from(table[child * P + 1]))
        .map(|place| entry(table, child, place))
        .collect();
    let least = |x: usize| below.iter().map(|e| e[x]).min().unwrap();
    let most = |x: usize| below.iter().map(|e| e[x]).max().unwrap();
    let strongest = below.iter().find(|e| e[6] == most(6)).unwrap();
    let unions: Vec<&[u16]> = below
        .iter()
        .map(|e| if is_leaf { &e[..6] } else { &e[15..] })
        .collect();
    let largest = unions.iter().map(|u| size(u)).max().unwrap();
    let union = unions.iter().find(|u| size(u) == largest).unwrap();
    let strongest_box = if is_leaf {
        &strongest[..6]
    } else {
        &strongest[9..15]
    };
    let weakest = if is_leaf { least(6) } else { least(7) };
    let cover = [least(0), most(1), least(2), most(3), least(4), most(5)];
    let middle = [most(6), weakest, child as u16];
    words == [&cover[..], &middle, strongest_box, union].concat()
}

/// The best gust and the pages opened by following the words as they are; `None` is refusal 4.
pub fn answer(table: &[u16], small: &SmallRecord, question: GustBox) -> Option<(i64, usize)> {
    let mut search = Search {
        table,
        question: question.ends(),
        best: -1,
        opened: 0,
    };
    let done = search.open(small.root as usize, i64::from(small.height), true);
    done.then_some((search.best, search.opened))
}

struct Search<'a> {
    table: &'a [u16],
    question: [u32; 6],
    best: i64,
    opened: usize,
}

impl Search<'_> {
    fn open(&mut self, page: usize, level: i64, is_root: bool) -> bool {
        let pages = self.table.len() / P;
        if page >= pages || level < 1 || self.opened == pages {
            return false;
        }
        self.opened += 1;
        let count = usize::from(self.table[page * P + 1]);
        let may_be_empty = is_root && level == 1;
        if i64::from(self.table[page * P]) != level || count > 8 || count == 0 && !may_be_empty {
            return false;
        }
        for place in 0..count {
            let e = entry(self.table, page, place);
            let gust = i64::from(e[6]);
            if !self.touches(e) || gust <= self.best {
                continue;
            }
            if level == 1 || self.touches(&e[9..15]) || self.covers(e) {
                self.best = gust;
            } else if !self.open(usize::from(e[8]), level - 1, false) {
                return false;
            }
        }
        true
    }

    fn touches(&self, ends: &[u16]) -> bool {
        let (q, e) = (&self.question, |x: usize| u32::from(ends[x]));
        [0, 2, 4]
            .into_iter()
            .all(|x| e(x) <= q[x + 1] && q[x] <= e(x + 1))
    }

    fn covers(&self, ends: &[u16]) -> bool {
        let (q, e) = (&self.question, |x: usize| u32::from(ends[x]));
        [0, 2, 4]
            .into_iter()
            .all(|x| q[x] <= e(x) && e(x + 1) <= q[x + 1])
    }
}
