//! One site by days: a plain array of the strongest gust of each day.

use crate::{Refusal, LIMITS, MOST_GUST};

/// How many days there are.
pub const STRIP_DAYS: usize = LIMITS[2] as usize + 1;
/// How many segments a strip has at most, and how many words it is lent.
pub const MOST_SEGMENTS: usize = 1_024;

/// A day's value: 0 for nothing, and one more than its gust for a gust.
const NOTHING: u16 = 0;

/// What a strip stands for, day by day.
#[derive(Clone, PartialEq, Eq, Debug)]
pub struct Strip {
    days: Vec<u16>,
    segments: usize,
    /// What the days of the last record were before it.
    before: Vec<u16>,
}

/// How often the value changes from a day to the next.
fn changes(days: &[u16]) -> usize {
    let pairs = days.iter().zip(&days[1..]);
    pairs.map(|(day, next)| usize::from(day != next)).sum()
}

fn range(days: [u32; 2]) -> Result<std::ops::RangeInclusive<usize>, Refusal> {
    let [low, high] = days;
    if low > high || high > LIMITS[2] {
        return Err(Refusal::Box);
    }
    Ok(low as usize..=high as usize)
}

/// Refusals 2 and 3, which need no strip.
pub fn legal_report(days: [u32; 2], gust: u32) -> Result<(), Refusal> {
    range(days)?;
    if gust > MOST_GUST {
        return Err(Refusal::Gust);
    }
    Ok(())
}

/// Refusal 2, which needs no strip.
pub fn legal_days(days: [u32; 2]) -> Result<(), Refusal> {
    range(days).map(|_| ())
}

impl Strip {
    /// A strip that is all nothing.
    pub fn nothing() -> Self {
        Strip {
            days: vec![NOTHING; STRIP_DAYS],
            segments: 1,
            before: Vec::new(),
        }
    }

    /// The strip that so many words of these stand for: each has a last day in its high half and a value in its low
    /// half. `None` if they are no parting of all days with neighbours unlike.
    pub fn read(words: &[u32], count: u32) -> Option<Self> {
        if words.len() != MOST_SEGMENTS || count as usize > MOST_SEGMENTS {
            return None;
        }
        let mut days = Vec::with_capacity(STRIP_DAYS);
        for word in &words[..count as usize] {
            let (last, value) = ((word >> 16) as usize, (word & 0xffff) as u16);
            let alike = days.last() == Some(&value);
            if last < days.len() || last >= STRIP_DAYS || u32::from(value) > MOST_GUST + 1 || alike
            {
                return None;
            }
            days.resize(last + 1, value);
        }
        (days.len() == STRIP_DAYS).then_some(Strip {
            days,
            segments: count as usize,
            before: Vec::new(),
        })
    }

    /// Whether so many words are this strip's segments, each ending where the next day is unlike.
    pub fn is_written(&self, words: &[u32], count: u32) -> bool {
        let mut first = 0;
        let mut each = words[..count as usize].iter();
        let ends = each.all(|word| {
            let (last, value) = ((word >> 16) as usize, (word & 0xffff) as u16);
            let days = self.days.get(first..=last);
            let same =
                days.is_some_and(|days| days.iter().fold(true, |all, day| all & (*day == value)));
            first = last + 1;
            same && self.days.get(first) != Some(&value)
        });
        ends && first == STRIP_DAYS
    }

    pub fn segments(&self) -> usize {
        self.segments
    }

    /// Raises each day of a range to a gust. Refuses 2, 3, 10 in this order.
    pub fn record(&mut self, days: [u32; 2], gust: u32) -> Result<(), Refusal> {
        legal_report(days, gust)?;
        let touched = range(days)?;
        let around = touched.start().saturating_sub(1)..=(touched.end() + 1).min(STRIP_DAYS - 1);
        let others = self.segments - changes(&self.days[around.clone()]);
        self.before.clear();
        self.before.extend_from_slice(&self.days[touched.clone()]);
        for day in &mut self.days[touched.clone()] {
            *day = (*day).max(gust as u16 + 1);
        }
        let segments = others + changes(&self.days[around]);
        if segments > MOST_SEGMENTS {
            self.days[touched].copy_from_slice(&self.before);
            return Err(Refusal::Strip);
        }
        self.segments = segments;
        Ok(())
    }

    /// The strongest gust of a range of days, or `None`. Refuses 2.
    pub fn ask(&self, days: [u32; 2]) -> Result<Option<u32>, Refusal> {
        let values = &self.days[range(days)?];
        let best = values.iter().fold(NOTHING, |best, day| best.max(*day));
        Ok(u32::from(best).checked_sub(1))
    }
}
