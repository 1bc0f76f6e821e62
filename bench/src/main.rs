//! Times the proved library beside the second program, in one process and in turn. Prints one table.
use bench::twice::{five, record_sound};
use bench::{book, Record, Seed, Spread, DENSE, SPARSE};
use gustbook::{Days, Row, MOST_ROWS, STRIP_WORDS};
use second::{GustBox, SmallRecord, LIMITS};
use std::hint::black_box;
use std::time::{Duration, Instant};

/// Nanoseconds of a turn of each side, and how they compare: medians over the rounds.
struct Both {
    ours: f64,
    theirs: f64,
    ratio: f64,
}

const ROUNDS: usize = 31;
const ROUND: Duration = Duration::from_millis(4);

fn timed(work: impl FnOnce()) -> Duration {
    let start = Instant::now();
    work();
    start.elapsed()
}

fn median(mut all: Vec<f64>) -> f64 {
    all.sort_by(f64::total_cmp);
    all[all.len() / 2]
}

/// Rounds of both in turn, so that both meet the same machine.
fn beside(mut ours: impl FnMut() -> Duration, mut theirs: impl FnMut() -> Duration) -> Both {
    let once = ours().max(theirs()).max(Duration::from_nanos(1));
    let turns = (ROUND.as_nanos() / once.as_nanos()).clamp(1, 20_000) as u32;
    let round = |side: &mut dyn FnMut() -> Duration| {
        let spent: Duration = (0..turns).map(|_| side()).sum();
        spent.as_nanos() as f64 / f64::from(turns)
    };
    let pairs: Vec<(f64, f64)> = (0..ROUNDS)
        .map(|_| (round(&mut ours), round(&mut theirs)))
        .collect();
    Both {
        ours: median(pairs.iter().map(|p| p.0).collect()),
        theirs: median(pairs.iter().map(|p| p.1).collect()),
        ratio: median(pairs.iter().map(|p| p.0 / p.1).collect()),
    }
}

/// How the least times of two compare, over many short rounds in turn.
fn least(mut one: impl FnMut(), mut other: impl FnMut()) -> f64 {
    let mut best = [Duration::MAX; 2];
    for _ in 0..400 {
        best[0] = best[0].min(timed(&mut one));
        best[1] = best[1].min(timed(&mut other));
    }
    best[0].as_secs_f64() / best[1].as_secs_f64()
}

/// A book in both programs' words, with the records that it accepted.
struct Book {
    spread: &'static Spread,
    pages: usize,
    table: Vec<u16>,
    small: [u32; 5],
    record: SmallRecord,
    accepted: Vec<Record>,
}

impl Book {
    fn new(pages: usize, most: usize, spread: &'static Spread) -> Self {
        let (table, record, accepted) = book(pages, most, spread, &mut Seed::of(9));
        let small = five(&record);
        Book {
            spread,
            pages,
            table,
            small,
            record,
            accepted,
        }
    }

    /// A row of the table; times are of `per` calls.
    fn row(&self, what: &str, per: usize, both: &Both, remark: &str) {
        let each = |ns: f64| in_words(ns / per as f64);
        println!(
            "| {what} | {} | {} | {} | {} | {:.2} | {remark} |",
            grouped(self.pages),
            grouped(self.accepted.len()),
            each(both.ours),
            each(both.theirs),
            both.ratio
        );
    }

    fn clearing(&self) {
        let (mut ours, mut small) = (self.table.clone(), self.small);
        let (mut theirs, mut record) = (self.table.clone(), self.record);
        let both = beside(
            || timed(|| gustbook::clear(black_box(&mut ours), &mut small).expect("it fits")),
            || timed(|| second::clear(black_box(&mut theirs), &mut record).expect("it fits")),
        );
        self.row("clear", 1, &both, "");
    }

    /// Questions of several sizes; the last, over everything, opens only the root.
    fn asking(&self, remark: &str) {
        self.asking_for(1, "0.0001%", remark);
        self.asking_for(100, "0.01%", remark);
        self.asking_for(10_000, "1%", remark);
        self.asking_for(100_000, "10%", remark);
        self.asking_for(1_000_000, "all", remark);
    }

    fn asking_for(&self, parts: u32, size: &str, remark: &str) {
        let seed = &mut Seed::of(u64::from(parts));
        // Enough of them that no processor learns them by heart.
        let question = |_| self.spread.question(parts, seed);
        let places: Vec<[u32; 6]> = (0..4_000).map(question).collect();
        let boxes: Vec<GustBox> = places.iter().map(|place| (*place).into()).collect();
        let (table, small) = (&self.table, &self.small);
        let opened: u32 = places
            .iter()
            .map(|place| {
                gustbook::ask(table, small, place)
                    .expect("a good book")
                    .pages
            })
            .sum();
        let ours = || {
            for place in &places {
                let _ = black_box(gustbook::ask(black_box(table), small, place));
            }
        };
        let theirs = || {
            for place in &boxes {
                let _ = black_box(second::ask(black_box(table), &self.record, *place));
            }
        };
        let both = beside(|| timed(ours), || timed(theirs));
        let opened = f64::from(opened) / places.len() as f64;
        let scan = self.plain_scan(&places[..50]);
        let remark = format!("{opened:.1} pages opened; a plain scan {scan}{remark}");
        self.row(
            &format!("ask, {size} of the volume"),
            places.len(),
            &both,
            &remark,
        );
    }

    /// Sheets of 32 questions; beside the first ten of them the same questions asked one by one.
    fn sheets(&self) {
        let seed = &mut Seed::of(32);
        let places: Vec<[u32; 6]> = (0..4_000)
            .map(|_| self.spread.question(10_000, seed))
            .collect();
        let mut rows: Vec<Row> = places.iter().map(|place| Row::new(*place)).collect();
        let mut others: Vec<second::Row> = places.iter().map(their_row).collect();
        let (table, small) = (&self.table, &self.small);
        let ours = |rows: &mut [Row]| {
            for sheet in rows.chunks_mut(MOST_ROWS) {
                gustbook::ask_sheet(black_box(table), small, sheet).expect("no more than 32");
            }
        };
        let some = 10 * MOST_ROWS;
        let singles = || {
            for place in &places[..some] {
                let _ = black_box(gustbook::ask(black_box(table), small, place));
            }
        };
        let by_one = least(|| ours(&mut rows[..some]), singles);
        let theirs = |rows: &mut [second::Row]| {
            for sheet in rows.chunks_mut(second::MOST_ROWS) {
                second::ask_sheet(black_box(table), &self.record, sheet).expect("no more than 32");
            }
        };
        let both = beside(
            || timed(|| ours(&mut rows)),
            || timed(|| theirs(&mut others)),
        );
        let remark = format!("{by_one:.2} times the same asked one by one");
        self.row(
            "ask, sheets of 32, a question",
            places.len(),
            &both,
            &remark,
        );
    }

    /// The time of a question put to a plain array of the accepted records.
    fn plain_scan(&self, places: &[[u32; 6]]) -> String {
        let narrow = |place: &[u32; 6]| place.map(|end| end as u16);
        let accepted = self.accepted.iter();
        let held: Vec<_> = accepted
            .map(|(place, gust)| (narrow(place), *gust as u16))
            .collect();
        let scan = || {
            for place in places {
                black_box(strongest(black_box(&held), narrow(place)));
            }
        };
        let both = beside(|| timed(scan), || timed(scan));
        in_words(both.ours / places.len() as f64)
    }

    fn counting(&self) {
        let (table, small) = (&self.table, &self.small);
        let both = beside(
            || timed(|| assert!(gustbook::count(black_box(table), small).is_ok())),
            || timed(|| assert!(second::count(black_box(table), &self.record).is_ok())),
        );
        let word = both.ours / table.len() as f64;
        let remark = format!("the well-formed check, {word:.2} ns a word");
        self.row("count", 1, &both, &remark);
    }

    fn saving_and_loading(&self) {
        let mut image = vec![0; gustbook::image_bytes(self.pages)];
        let mut other = image.clone();
        let (table, small) = (&self.table, &self.small);
        let rate = |both: &Both| {
            let bytes = gustbook::image_bytes(self.pages) as f64;
            format!("{:.1} GB/s", bytes / both.ours)
        };
        let both = beside(
            || timed(|| gustbook::save(black_box(table), small, &mut image).expect("a good book")),
            || {
                timed(|| {
                    second::save(black_box(table), &self.record, &mut other).expect("a good book")
                })
            },
        );
        assert!(image == other);
        self.row("save", 1, &both, &rate(&both));
        let (mut ours, mut five) = (table.clone(), *small);
        let (mut theirs, mut record) = (table.clone(), self.record);
        let both = beside(
            || timed(|| gustbook::load(black_box(&image), &mut ours, &mut five).expect("good")),
            || timed(|| second::load(black_box(&image), &mut theirs, &mut record).expect("good")),
        );
        assert!(ours == theirs && five == *small);
        self.row("load", 1, &both, &rate(&both));
    }

    /// Several runs of records, each from the same book, so that no processor learns them by heart.
    fn recording(&self, with_pass: bool, remark: &str) {
        let seed = &mut Seed::of(77);
        let many = 20;
        let a_run = |_| (0..many).map(|_| self.spread.record(seed)).collect();
        let runs: Vec<Vec<Record>> = (0..16).map(a_run).collect();
        let (mut ours, mut theirs) = (self.table.clone(), self.table.clone());
        let (mut next, mut other) = (runs.iter().cycle(), runs.iter().cycle());
        let both = beside(
            || {
                ours.copy_from_slice(&self.table);
                let (mut small, run) = (self.small, next.next().expect("they go round"));
                timed(|| {
                    run.iter()
                        .for_each(|new| our_record(&mut ours, &mut small, new, with_pass))
                })
            },
            || {
                theirs.copy_from_slice(&self.table);
                let (mut small, run) = (self.record, other.next().expect("they go round"));
                timed(|| {
                    run.iter()
                        .for_each(|new| their_record(&mut theirs, &mut small, new, with_pass))
                })
            },
        );
        let name = ["record, the book known to be sound", "record"][usize::from(with_pass)];
        self.row(name, many, &both, remark);
    }
}

/// A row of the second program's sheet, not answered yet.
fn their_row(place: &[u32; 6]) -> second::Row {
    second::Row {
        question: (*place).into(),
        refusal: None,
        gust: None,
        pages: 0,
    }
}

#[inline(always)]
fn our_record(table: &mut [u16], small: &mut [u32; 5], (place, gust): &Record, with_pass: bool) {
    let mut answer = [0; 2];
    let accepted = match with_pass {
        true => gustbook::record(table, small, place, *gust).is_ok(),
        // SAFETY: the book is well-formed, and every record leaves it so.
        false => unsafe { record_sound(table, small, place, *gust, &mut answer) == 0 },
    };
    assert!(accepted, "there is room");
    black_box(answer);
}

#[inline(always)]
fn their_record(table: &mut [u16], small: &mut SmallRecord, new: &Record, with_pass: bool) {
    let (place, gust) = (new.0.into(), new.1);
    let done = match with_pass {
        true => second::record(table, small, place, gust),
        false => second::record_sound(table, small, place, gust),
    };
    let _ = black_box(done.expect("there is room"));
}

/// A number below a million, its thousands apart.
fn grouped(n: usize) -> String {
    match n {
        0..1_000 => n.to_string(),
        _ => format!("{},{:03}", n / 1_000, n % 1_000),
    }
}

fn in_words(ns: f64) -> String {
    match ns {
        ns if ns < 9_999.5 => format!("{} ns", grouped(ns.round() as usize)),
        ns if ns < 1e6 => format!("{:.1} µs", ns / 1e3),
        ns => format!("{:.2} ms", ns / 1e6),
    }
}

/// The strongest gust that touches a box and one more, 0 for nothing, by a plain pass over everything that was accepted.
fn strongest(held: &[([u16; 6], u16)], [e0, e1, n0, n1, d0, d1]: [u16; 6]) -> u16 {
    let mut best = 0;
    for ([a0, a1, b0, b1, c0, c1], gust) in held {
        let east = (*a0 <= e1) & (e0 <= *a1);
        let north = (*b0 <= n1) & (n0 <= *b1);
        let day = (*c0 <= d1) & (d0 <= *c1);
        if *gust >= best && east & north & day {
            best = gust + 1;
        }
    }
    best
}

/// A strip of so many segments, and beside it a plain array of a value for each day.
struct Yard {
    segments: [u32; STRIP_WORDS],
    count: u32,
    days: Vec<u16>,
}

impl Yard {
    fn new(most: u32) -> Self {
        let (mut segments, mut count) = ([0; STRIP_WORDS], 0);
        gustbook::strip_clear(&mut segments, &mut count).expect("it fits");
        let mut days = vec![0; LIMITS[2] as usize + 1];
        let seed = &mut Seed::of(u64::from(most));
        while count + 2 < most {
            let (place, gust) = (some_days(20, seed), seed.below(1_201));
            gustbook::strip_record(&mut segments, &mut count, &place, gust).expect("there is room");
            fill(&mut days, place, gust as u16);
        }
        Yard {
            segments,
            count,
            days,
        }
    }

    fn row(&self, what: &str, per: usize, both: &Both) {
        let each = |ns: f64| in_words(ns / per as f64);
        let (ours, theirs) = (each(both.ours), each(both.theirs));
        let segments = grouped(self.count as usize);
        println!(
            "| {what} | {segments} | {ours} | {theirs} | {:.2} |",
            both.ratio
        );
    }

    fn asking(&self, long: u32, size: &str) {
        let seed = &mut Seed::of(u64::from(long));
        let places: Vec<Days> = (0..500).map(|_| some_days(long, seed)).collect();
        let ours = || {
            for place in &places {
                let _ = black_box(gustbook::strip_ask(
                    black_box(&self.segments),
                    self.count,
                    place,
                ));
            }
        };
        let theirs = || {
            for place in &places {
                black_box(scan(black_box(&self.days), *place));
            }
        };
        let both = beside(|| timed(ours), || timed(theirs));
        self.row(&format!("strip: ask {size}"), places.len(), &both);
    }

    /// Several runs of records, each from the same strip.
    fn recording(&self, long: u32, size: &str) {
        let seed = &mut Seed::of(u64::from(long));
        let many = 20;
        let mut some = || (some_days(long, seed), seed.below(1_201));
        let runs: Vec<Vec<(Days, u32)>> = (0..16)
            .map(|_| (0..many).map(|_| some()).collect())
            .collect();
        let (mut ours, mut theirs) = (self.segments, self.days.clone());
        let (mut next, mut other) = (runs.iter().cycle(), runs.iter().cycle());
        let both = beside(
            || {
                ours = self.segments;
                let (mut count, run) = (self.count, next.next().expect("they go round"));
                timed(|| {
                    for (place, gust) in run {
                        let _ =
                            black_box(gustbook::strip_record(&mut ours, &mut count, place, *gust));
                    }
                })
            },
            || {
                theirs.copy_from_slice(&self.days);
                let run = other.next().expect("they go round");
                timed(|| {
                    for (place, gust) in run {
                        fill(black_box(&mut theirs), *place, *gust as u16);
                    }
                })
            },
        );
        self.row(&format!("strip: record {size}"), many, &both);
    }
}

/// So many days, somewhere.
fn some_days(long: u32, seed: &mut Seed) -> Days {
    let low = seed.below(LIMITS[2] + 2 - long);
    [low, low + long - 1]
}

fn fill(days: &mut [u16], [low, high]: Days, gust: u16) {
    for day in &mut days[low as usize..=high as usize] {
        *day = (*day).max(gust + 1);
    }
}

fn scan(days: &[u16], [low, high]: Days) -> u16 {
    let days = &days[low as usize..=high as usize];
    days.iter().fold(0, |best, day| best.max(*day))
}

/// A strip beside a plain array of a value for each day.
fn strips() {
    println!();
    println!("| call | segments | proved | plain array | ratio |");
    println!("|---|---|---|---|---|");
    for most in [12, 100, 1_000] {
        let yard = Yard::new(most);
        yard.asking(30, "a month");
        yard.asking(LIMITS[2] + 1, "all days");
        yard.recording(1, "a day");
        yard.recording(365, "a year");
    }
}

fn main() {
    if std::env::args().any(|word| word == "strips") {
        return strips();
    }
    println!("| call | pages | records | proved | second program | ratio | |");
    println!("|---|---|---|---|---|---|---|");
    for pages in [180, 4_096] {
        // As many as fit, but for the room that the timed records need.
        let room = |spread| Book::new(pages, usize::MAX, spread).accepted.len() - 60;
        let fit = room(&SPARSE);
        let sizes = [100, 1_000, 10_000].into_iter().filter(|many| *many < fit);
        for many in sizes.chain([fit]) {
            let (p, r) = (grouped(pages), grouped(many));
            eprintln!("timing a book of {p} pages and {r} records");
            let book = Book::new(pages, many, &SPARSE);
            if many == 100 {
                book.clearing();
            }
            book.recording(true, "");
            book.recording(false, "");
            book.asking("");
            book.sheets();
            book.counting();
            book.saving_and_loading();
        }
        // Records that lie over each other strike, cut and cover.
        let full = room(&DENSE);
        for many in [full / 2, full] {
            let book = Book::new(pages, many, &DENSE);
            book.recording(true, "dense records");
            book.recording(false, "dense records");
            book.asking("; dense records");
        }
    }
    strips();
}
