//! A million calls on strips, the proved library's and the second program's plain array of days. After every call the
//! number returned, the answer, every word in use and every word beyond are what the array says; a refusal changes none.
use bench::Seed;
use gustbook::{Days, Refusal, STRIP_WORDS};
use second::{legal_days, legal_report, Strip, LIMITS, MOST_SEGMENTS};
use std::collections::BTreeMap;

const RUNS: u64 = 250;
const CALLS: usize = 4_400;

/// The lent memory, and what it stands for: `None` for a spoilt strip.
#[derive(Clone)]
struct Lent {
    segments: Vec<u32>,
    count: u32,
    days: Option<Strip>,
}

impl Lent {
    fn new(seed: &mut Seed) -> Self {
        let segments: Vec<u32> = (0..STRIP_WORDS).map(|_| seed.below(u32::MAX)).collect();
        let count = seed.below(2_000);
        let days = Strip::read(&segments, count);
        Lent {
            segments,
            count,
            days,
        }
    }

    /// Whether the memory is what it was, word for word.
    fn is(&self, segments: &[u32], count: u32) -> bool {
        self.count == count && self.segments == segments
    }

    /// Whether the memory holds the strip, and beyond it what it held before.
    fn holds(&self, before: &[u32]) -> bool {
        let strip = self.days.as_ref().expect("a strip");
        let used = self.count as usize;
        used == strip.segments()
            && strip.is_written(&self.segments, self.count)
            && self.segments[used..] == before[used..]
    }

    fn clear(&mut self) -> u32 {
        let before = self.clone();
        let said = number(gustbook::strip_clear(&mut self.segments, &mut self.count));
        if self.segments.len() == STRIP_WORDS {
            self.days = Some(Strip::nothing());
            assert!(said == 0 && self.holds(&before.segments));
        } else {
            assert!(said == 4 && self.is(&before.segments, before.count));
        }
        said
    }

    fn record(&mut self, days: Days, gust: u32) -> u32 {
        let (before, count) = (self.segments.clone(), self.count);
        let said = number(gustbook::strip_record(
            &mut self.segments,
            &mut self.count,
            &days,
            gust,
        ));
        let expected = match (legal_report(days, gust), &mut self.days) {
            (Err(refusal), _) => Err(refusal),
            (Ok(()), None) => Err(second::Refusal::Damaged),
            (Ok(()), Some(strip)) => strip.record(days, gust),
        };
        match expected {
            Ok(()) => assert!(said == 0 && self.holds(&before)),
            Err(refusal) => {
                assert_eq!(said, u32::from(refusal.number()));
                assert!(self.is(&before, count));
            }
        }
        said
    }

    fn ask(&self, days: Days) -> u32 {
        let said = gustbook::strip_ask(&self.segments, self.count, &days);
        let expected = match (legal_days(days), &self.days) {
            (Err(refusal), _) => Err(refusal),
            (Ok(()), None) => Err(second::Refusal::Damaged),
            (Ok(()), Some(strip)) => strip.ask(days),
        };
        match expected {
            Ok(gust) => assert_eq!(said, Ok(gust)),
            Err(refusal) => assert_eq!(said, Err(Refusal(u32::from(refusal.number())))),
        }
        said.map_or_else(|refusal| refusal.0, |_| 0)
    }

    /// A word, the count or the number of words becomes another.
    fn spoil(&mut self, seed: &mut Seed) {
        let at = seed.below(self.count.clamp(1, STRIP_WORDS as u32)) as usize;
        match seed.below(6) {
            0 => self.count = seed.pick(&[0, 1, self.count + 1, 1_024, 1_025, u32::MAX]),
            1 => self.count = self.count.saturating_sub(1),
            2 => self.segments.truncate(STRIP_WORDS - 1),
            3 => self.segments.push(0),
            4 if at < self.segments.len() => {
                self.segments[at] =
                    self.segments[at].wrapping_add(seed.pick(&[1, 65_536, u32::MAX]));
            }
            _ if at < self.segments.len() => self.segments[at] = seed.below(u32::MAX),
            _ => {}
        }
        self.days = Strip::read(&self.segments, self.count);
    }
}

fn number(said: Result<(), Refusal>) -> u32 {
    said.map_or_else(|refusal| refusal.0, |()| 0)
}

/// Days somewhere, now and then ones that are refused, or very many: seldom where a strip is to fill up.
fn days(long: u32, seed: &mut Seed) -> Days {
    let low = seed.below(LIMITS[2] + 1);
    let high = low + seed.below(long);
    match seed.below(if long < 10 { 4_000 } else { 40 }) {
        0 => [high + 1, low],
        1 => [low, LIMITS[2] + seed.below(2)],
        2 => [low, seed.pick(&[65_535, 65_536, u32::MAX])],
        3 => [0, high.min(LIMITS[2])],
        _ => [low, high.min(LIMITS[2])],
    }
}

#[test]
fn a_million_calls() {
    let mut seen: BTreeMap<(&str, u32), usize> = BTreeMap::new();
    let mut fullest = 0;
    for run in 0..RUNS {
        let seed = &mut Seed::of(run);
        // How long the days of a record are, how many gusts there are, and whether the strip is spoilt now and then.
        let (long, gusts) = (seed.pick(&[2, 40, 3_000]), seed.pick(&[2, 5, 1_201]));
        let spoilt = run % 3 == 0;
        let mut lent = Lent::new(seed);
        for _ in 0..CALLS {
            let (call, said) = match seed.below(100) {
                0 if lent.days.is_none() || seed.one_in(30) => {
                    if !seed.one_in(4) {
                        lent.segments.resize(STRIP_WORDS, 7);
                    }
                    ("clear", lent.clear())
                }
                1 if spoilt => {
                    lent.spoil(seed);
                    continue;
                }
                2..40 => ("ask", lent.ask(days(long * 9, seed))),
                _ => {
                    let gust = seed.below(gusts) + 1_201 * u32::from(seed.one_in(50));
                    ("record", lent.record(days(long, seed), gust))
                }
            };
            *seen.entry((call, said)).or_default() += 1;
            fullest = fullest.max(lent.days.as_ref().map_or(0, Strip::segments));
        }
    }
    let calls: usize = seen.values().sum();
    println!("{calls} calls on strips: {seen:?}; the fullest has {fullest} segments");
    assert!(calls > 1_000_000);
    assert_eq!(fullest, MOST_SEGMENTS);
    for (call, refusals) in [
        ("clear", &[0, 4][..]),
        ("record", &[0, 2, 3, 4, 10]),
        ("ask", &[0, 2, 4]),
    ] {
        for refusal in refusals {
            assert!(
                seen.contains_key(&(call, *refusal)),
                "{call} never gave {refusal}"
            );
        }
    }
}
