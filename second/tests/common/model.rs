//! A book as a plain tree on the heap, written for clearness alone. It keeps no summaries:
//! all that an index entry says is found anew from the records below it.

use std::collections::BTreeSet;

use second::{SmallRecord, Verdict, PAGE_WORDS};

type Ends = [i64; 6];

#[derive(Clone)]
enum Item {
    Held(Ends, i64),
    Below(Box<Node>),
}

#[derive(Clone)]
struct Node {
    page: usize,
    items: Vec<Item>,
    level: u16,
}

pub struct Model {
    root: Node,
    used: BTreeSet<usize>,
    pages: usize,
    accepted: u32,
    struck: u32,
    covered: u32,
}

struct Task {
    ends: Ends,
    gust: i64,
    cut: bool,
    struck: u32,
}

enum Came {
    Kept(Option<Node>),
    Covered,
}

const AXES: [usize; 3] = [0, 2, 4];

fn cells(a: &Ends) -> i64 {
    AXES.iter().map(|&x| a[x + 1] - a[x] + 1).product()
}

fn axis_inside(outer: &Ends, inner: &Ends, x: usize) -> bool {
    outer[x] <= inner[x] && inner[x + 1] <= outer[x + 1]
}

fn inside(outer: &Ends, inner: &Ends) -> bool {
    AXES.iter().all(|&x| axis_inside(outer, inner, x))
}

fn touch(a: &Ends, b: &Ends) -> bool {
    AXES.iter().all(|&x| a[x] <= b[x + 1] && b[x] <= a[x + 1])
}

fn around(all: &[Ends]) -> Ends {
    let mut cover = all[0];
    for ends in all {
        for x in AXES {
            cover[x] = cover[x].min(ends[x]);
            cover[x + 1] = cover[x + 1].max(ends[x + 1]);
        }
    }
    cover
}

impl Item {
    /// All records below, first places first.
    fn records(&self) -> Vec<(Ends, i64)> {
        match self {
            Item::Held(ends, gust) => vec![(*ends, *gust)],
            Item::Below(node) => node.items.iter().flat_map(Item::records).collect(),
        }
    }

    fn cover(&self) -> Ends {
        around(&self.records().iter().map(|r| r.0).collect::<Vec<_>>())
    }

    fn strongest(&self) -> (Ends, i64) {
        let records = self.records();
        let most = records.iter().map(|r| r.1).max().unwrap();
        *records.iter().find(|r| r.1 == most).unwrap()
    }

    fn weakest(&self) -> i64 {
        self.records().iter().map(|r| r.1).min().unwrap()
    }

    fn union(&self) -> Ends {
        let records = self.records();
        let most = records.iter().map(|r| cells(&r.0)).max().unwrap();
        records.iter().find(|r| cells(&r.0) == most).unwrap().0
    }

    fn pages(&self) -> Vec<usize> {
        match self {
            Item::Held(..) => vec![],
            Item::Below(node) => {
                let below = node.items.iter().flat_map(Item::pages);
                std::iter::once(node.page).chain(below).collect()
            }
        }
    }

    /// The boxes that may cut or cover a gust, in order.
    fn candidates(&self, gust: i64) -> Vec<Ends> {
        let mut found = vec![];
        match self {
            Item::Held(ends, held) if *held >= gust => found.push(*ends),
            Item::Held(..) => {}
            Item::Below(_) => {
                if self.strongest().1 >= gust {
                    found.push(self.strongest().0);
                }
                if self.weakest() >= gust {
                    found.push(self.union());
                }
            }
        }
        found
    }

    fn words(&self) -> Vec<i64> {
        match self {
            Item::Held(ends, gust) => [&ends[..], &[*gust], &[0; 14]].concat(),
            Item::Below(node) => {
                let (strongest, gust) = self.strongest();
                let middle = [gust, self.weakest(), node.page as i64];
                [&self.cover()[..], &middle, &strongest, &self.union()].concat()
            }
        }
    }
}

impl Model {
    pub fn new(pages: usize) -> Self {
        let root = Node {
            page: 0,
            items: vec![],
            level: 1,
        };
        Model {
            root,
            used: BTreeSet::from([0]),
            pages,
            accepted: 0,
            struck: 0,
            covered: 0,
        }
    }

    pub fn small(&self) -> SmallRecord {
        SmallRecord {
            root: self.root.page as u32,
            height: u32::from(self.root.level),
            accepted: self.accepted,
            struck: self.struck,
            covered: self.covered,
        }
    }

    pub fn table(&self) -> Vec<u16> {
        let mut table = vec![0; self.pages * PAGE_WORDS];
        let mut open = vec![&self.root];
        while let Some(node) = open.pop() {
            let words = node.items.iter().flat_map(Item::words);
            let head = [i64::from(node.level), node.items.len() as i64];
            let page = &mut table[node.page * PAGE_WORDS..][..PAGE_WORDS];
            for (slot, word) in page.iter_mut().zip(head.into_iter().chain(words)) {
                *slot = u16::try_from(word).unwrap();
            }
            open.extend(node.items.iter().filter_map(|item| match item {
                Item::Held(..) => None,
                Item::Below(node) => Some(&**node),
            }));
        }
        table
    }

    fn lowest_free(&mut self) -> usize {
        let page = (0..self.pages).find(|p| !self.used.contains(p)).unwrap();
        self.used.insert(page);
        page
    }

    /// Records, or `None` where too few pages are free.
    pub fn record(&mut self, ends: [u32; 6], gust: u32) -> Option<(Verdict, u32)> {
        if self.pages - self.used.len() < usize::from(self.root.level) + 1 {
            return None;
        }
        let mut task = Task {
            ends: ends.map(i64::from),
            gust: i64::from(gust),
            cut: false,
            struck: 0,
        };
        let mut root = self.root.clone();
        let came = self.visit(&mut root, &mut task, true);
        self.root = root;
        let verdict = match came {
            Came::Covered => Verdict::Covered,
            Came::Kept(second) => {
                second.into_iter().for_each(|second| self.grow(second));
                [Verdict::Kept, Verdict::Cut][usize::from(task.cut)]
            }
        };
        self.shrink();
        self.accepted += 1;
        self.struck += task.struck;
        self.covered += u32::from(verdict == Verdict::Covered);
        Some((verdict, task.struck))
    }

    fn grow(&mut self, second: Node) {
        let page = self.lowest_free();
        let level = self.root.level + 1;
        let items = [self.root.clone(), second].map(|node| Item::Below(Box::new(node)));
        self.root = Node {
            page,
            items: items.to_vec(),
            level,
        };
    }

    fn shrink(&mut self) {
        while let [Item::Below(only)] = &self.root.items[..] {
            self.used.remove(&self.root.page);
            self.root = Node::clone(only);
        }
    }

    fn visit(&mut self, node: &mut Node, task: &mut Task, is_root: bool) -> Came {
        self.strike(node, task);
        if node.items.is_empty() {
            assert!(is_root, "only a root is left with no entry");
            node.level = 1;
        }
        let gust = task.gust;
        for held in node.items.iter().flat_map(|i| i.candidates(gust)) {
            if inside(&held, &task.ends) {
                return Came::Covered;
            }
            cut(task, &held);
        }
        if node.level == 1 {
            node.items.push(Item::Held(task.ends, task.gust));
        } else {
            let place = choose(&node.items, &task.ends);
            let Item::Below(child) = &mut node.items[place] else {
                unreachable!()
            };
            match self.visit(child, task, false) {
                Came::Covered => return Came::Covered,
                Came::Kept(None) => {}
                Came::Kept(Some(second)) => node.items.push(Item::Below(Box::new(second))),
            }
        }
        Came::Kept((node.items.len() == 9).then(|| self.split(node)))
    }

    fn strike(&mut self, node: &mut Node, task: &mut Task) {
        let (gone, kept): (Vec<Item>, _) = std::mem::take(&mut node.items)
            .into_iter()
            .partition(|item| inside(&task.ends, &item.cover()) && item.strongest().1 <= task.gust);
        node.items = kept;
        for item in gone {
            task.struck += item.records().len() as u32;
            item.pages().iter().for_each(|page| {
                self.used.remove(page);
            });
        }
    }

    fn split(&mut self, node: &mut Node) -> Node {
        let [first, second] = share(&node.items);
        let page = self.lowest_free();
        let pick = |places: Vec<usize>| places.iter().map(|&p| node.items[p].clone()).collect();
        let second = Node {
            page,
            items: pick(second),
            level: node.level,
        };
        node.items = pick(first);
        second
    }
}

fn cut(task: &mut Task, held: &Ends) {
    let open: Vec<usize> = AXES
        .into_iter()
        .filter(|&x| !axis_inside(held, &task.ends, x))
        .collect();
    let [x] = open[..] else { return };
    let within = |end: i64| (held[x]..=held[x + 1]).contains(&end);
    match (within(task.ends[x]), within(task.ends[x + 1])) {
        (true, false) => task.ends[x] = held[x + 1] + 1,
        (false, true) => task.ends[x + 1] = held[x] - 1,
        _ => return,
    }
    task.cut = true;
}

fn choose(items: &[Item], ends: &Ends) -> usize {
    let cost = |place: &usize| {
        let cover = items[*place].cover();
        let grown = around(&[cover, *ends]);
        (cells(&grown) - cells(&cover), cells(&cover), *place)
    };
    (0..items.len()).min_by_key(cost).unwrap()
}

fn whole(covers: &[Ends], places: &[usize]) -> Ends {
    around(&places.iter().map(|&p| covers[p]).collect::<Vec<_>>())
}

/// The pair of places that wastes most.
fn seeds(covers: &[Ends]) -> (usize, usize) {
    let pairs = (0..9).flat_map(|i| (i + 1..9).map(move |j| (i, j)));
    let waste = |&(i, j): &(usize, usize)| {
        cells(&whole(covers, &[i, j])) - cells(&covers[i]) - cells(&covers[j])
    };
    let most = pairs.clone().map(|pair| waste(&pair)).max().unwrap();
    pairs.clone().find(|pair| waste(pair) == most).unwrap()
}

/// The places of the two groups, each in the order of placing.
fn share(items: &[Item]) -> [Vec<usize>; 2] {
    let covers: Vec<Ends> = items.iter().map(Item::cover).collect();
    let (i, j) = seeds(&covers);
    let mut groups = [vec![i], vec![j]];
    let mut left: Vec<usize> = (0..9).filter(|&p| p != i && p != j).collect();
    while !left.is_empty() {
        if let Some(group) = groups.iter_mut().find(|g| g.len() + left.len() == 3) {
            group.append(&mut left);
            break;
        }
        let before = |g: usize| cells(&whole(&covers, &groups[g]));
        let growth = |g: usize, p: usize| {
            cells(&whole(&covers, &[&groups[g][..], &[p]].concat())) - before(g)
        };
        let keen = |p: usize| (growth(0, p) - growth(1, p)).abs();
        let most = left.iter().map(|&p| keen(p)).max().unwrap();
        let at = left.iter().position(|&p| keen(p) == most).unwrap();
        let p = left.remove(at);
        let rank = |g: usize| (growth(g, p), before(g), groups[g].len(), g);
        let home = usize::from(rank(1) < rank(0));
        groups[home].push(p);
    }
    groups
}

impl Model {
    /// The best gust and the pages opened.
    pub fn ask(&self, question: [u32; 6]) -> (Option<u32>, u32) {
        let mut best = -1;
        let opened = open(&self.root, &question.map(i64::from), &mut best);
        (u32::try_from(best).ok(), opened)
    }
}

fn open(node: &Node, question: &Ends, best: &mut i64) -> u32 {
    let mut opened = 1;
    for item in &node.items {
        if !touch(&item.cover(), question) || item.strongest().1 <= *best {
            continue;
        }
        let (strongest, gust) = item.strongest();
        match item {
            Item::Below(child)
                if !touch(&strongest, question) && !inside(question, &item.cover()) =>
            {
                opened += open(child, question, best);
            }
            _ => *best = gust,
        }
    }
    opened
}
