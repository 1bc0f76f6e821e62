//! The calls of the static library and the second program's, a million and more: good books, spoilt ones, spoilt images.
//! A failure prints its seed and the shortest run of calls that shows it; so does a refusal, an answer or a rule that never came up.
use bench::runs::{Chooser, Style};
use bench::twice::{sides, Call, Lent, Run, Said, Second, Twice};
use bench::{Seed, Spread, DENSE, SPARSE};
use second::{Event, Tally};
use std::collections::BTreeMap;
use std::sync::atomic::{AtomicUsize, Ordering};
use std::sync::Mutex;
use std::time::Instant;

/// Each style with its number of runs.
const STYLES: [(Style, u64); 6] = [
    (
        style("good books, dense", &[4, 12, 40], &DENSE, 1_000, None),
        400,
    ),
    (
        style("good books, sparse", &[40, 200, 400], &SPARSE, 2_500, None),
        80,
    ),
    (
        style("spoilt books, dense", &[3, 10, 30], &DENSE, 1_000, Some(8)),
        300,
    ),
    (
        style("spoilt books, sparse", &[20, 60], &SPARSE, 1_500, Some(12)),
        150,
    ),
    (
        style("4,096 pages, good", &[4_096], &SPARSE, 50_000, None),
        1,
    ),
    (
        style("4,096 pages, spoilt", &[4_096], &DENSE, 1_500, Some(30)),
        2,
    ),
];

const fn style(
    name: &'static str,
    pages: &'static [u32],
    spread: &'static Spread,
    calls: usize,
    accidents: Option<u32>,
) -> Style {
    Style {
        name,
        pages,
        spread,
        calls,
        // A large book has to stay for long to grow tall.
        wide: if calls > 10_000 { 3_000 } else { 150 },
        accidents,
    }
}

/// How often each answer was given, and each rule applied.
#[derive(Default)]
struct Seen {
    calls: usize,
    answers: BTreeMap<(&'static str, &'static str, u32), u64>,
    rules: Tally,
}

/// A call's name, and its answer where it is not refused.
fn naming(call: &Call, said: &Said) -> (&'static str, &'static str) {
    let [first, struck, ..] = said.answer;
    match call {
        Call::Clear => ("clear", ""),
        Call::Record(..) | Call::RecordSound(..) => {
            let answer = match (first, struck) {
                _ if said.number != 0 => "",
                (0, 0) => "kept",
                (0, _) => "kept, some struck",
                (1, 0) => "cut",
                (1, _) => "cut, some struck",
                (_, 0) => "covered",
                _ => "covered, some struck",
            };
            let sound = matches!(call, Call::RecordSound(..));
            (
                ["record", "record without the pass"][usize::from(sound)],
                answer,
            )
        }
        Call::Ask(_) => (
            "ask",
            if said.number != 0 {
                ""
            } else {
                ["nothing", "gust"][first as usize]
            },
        ),
        Call::Count => ("count", ""),
        Call::Save => ("save", ""),
        _ => ("load", ""),
    }
}

/// Every call with every refusal that it can give; 0 is none.
const REFUSALS: [(&str, &[u32]); 7] = [
    ("clear", &[0, 1]),
    ("record", &[0, 1, 2, 3, 4, 5, 6]),
    ("record without the pass", &[0, 2, 3, 6]),
    ("ask", &[0, 1, 2, 4]),
    ("count", &[0, 1, 4]),
    ("save", &[0, 1, 4, 7]),
    ("load", &[0, 1, 4, 7, 8]),
];
const ANSWERS: [&str; 8] = [
    "kept",
    "kept, some struck",
    "cut",
    "cut, some struck",
    "covered",
    "covered, some struck",
    "nothing",
    "gust",
];

impl Seen {
    fn note(&mut self, call: &Call, said: &Said) {
        if !call.is_accident() {
            self.calls += 1;
            let (name, answer) = naming(call, said);
            *self.answers.entry((name, answer, said.number)).or_default() += 1;
        }
    }

    fn add(&mut self, other: Seen) {
        self.calls += other.calls;
        for (key, times) in other.answers {
            *self.answers.entry(key).or_default() += times;
        }
        self.rules.add(&other.rules);
    }

    fn times(&self, fits: impl Fn(&(&'static str, &'static str, u32)) -> bool) -> u64 {
        let all = self.answers.iter().filter(|(key, _)| fits(key));
        all.map(|(_, times)| times).sum()
    }

    /// Prints every count, and says whether all came up.
    fn report(&self) -> bool {
        let mut lines = Vec::new();
        for (name, refusals) in REFUSALS {
            for &number in refusals {
                let times = self.times(|key| key.0 == name && key.2 == number);
                let said = match number {
                    0 => "accepted".into(),
                    n => format!("refused by {n}"),
                };
                lines.push((format!("{name}, {said}"), times));
            }
        }
        for answer in ANSWERS {
            lines.push((answer.into(), self.times(|key| key.1 == answer)));
        }
        for event in Event::ALL {
            lines.push((format!("{event:?}"), self.rules.times(event)));
        }
        for level in 1..=5 {
            lines.push((format!("split at level {level}"), self.rules.splits(level)));
        }
        for (what, times) in &lines {
            println!("{times:>9}  {what}");
        }
        let missing: Vec<_> = lines.iter().filter(|line| line.1 == 0).collect();
        println!("{} calls; never seen: {missing:?}", self.calls);
        missing.is_empty() && self.calls >= 1_000_000
    }
}

/// One run; a difference is shown by the shortest run that has it.
fn run(style: &Style, number: u64) -> Seen {
    let mut seed = Seed::of(number);
    let pages = style.pages(&mut seed);
    let mut chooser = Chooser::new(style, seed);
    let (proved, second) = sides();
    let mut twice = Twice::new(proved, second, Lent::new(pages));
    let mut calls = Vec::new();
    let mut seen = Seen::default();
    while calls.len() < style.calls {
        let call = chooser.next(&twice.lent);
        calls.push(call.clone());
        match twice.call(&call) {
            Ok(said) => {
                chooser.told(&call, &said);
                seen.note(&call, &said);
            }
            Err(what) => fail(style, number, Run { pages, calls }, what),
        }
    }
    let Second(rules) = twice.other;
    Seen { rules, ..seen }
}

/// One failure is enough: others wait here for the end.
static FAILING: Mutex<()> = Mutex::new(());

fn fail(style: &Style, number: u64, run: Run, what: String) -> ! {
    let _first = FAILING.lock();
    eprintln!(
        "{}, seed {number}, call {}: {what}",
        style.name,
        run.calls.len()
    );
    let again = |run: &Run| {
        let (proved, second) = sides();
        run.difference(proved, second)
    };
    let short = run.shortest(|run| again(run).is_some());
    eprintln!("The shortest run found, on {} pages:", short.pages);
    short
        .calls
        .iter()
        .for_each(|call| eprintln!("    {call:?}"));
    let what = again(&short).map(|(_, what)| what).unwrap_or_default();
    eprintln!("{what}");
    std::process::exit(1);
}

fn main() {
    let started = Instant::now();
    let all: Vec<(&Style, u64)> = STYLES
        .iter()
        .rev()
        .flat_map(|(style, runs)| (0..*runs).map(move |number| (style, number)))
        .collect();
    let next = AtomicUsize::new(0);
    let take = || {
        let mut seen = Seen::default();
        while let Some((style, number)) = all.get(next.fetch_add(1, Ordering::Relaxed)) {
            if number % 50 == 0 {
                println!(
                    "{:>4} s  {}, from run {number}",
                    started.elapsed().as_secs(),
                    style.name
                );
            }
            seen.add(run(style, *number));
        }
        seen
    };
    let threads = std::thread::available_parallelism().map_or(1, usize::from);
    let mut seen = Seen::default();
    std::thread::scope(|scope| {
        let taken: Vec<_> = (0..threads).map(|_| scope.spawn(take)).collect();
        taken
            .into_iter()
            .for_each(|one| seen.add(one.join().expect("a thread ends")));
    });
    if !seen.report() {
        eprintln!("something never came up, or there were fewer than a million calls");
        std::process::exit(1);
    }
    println!("{} s", started.elapsed().as_secs());
}
