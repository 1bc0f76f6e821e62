//! Dates as day numbers, from 1880-01-01 as day 0 to 2039-12-31.

const FIRST_YEAR: u32 = 1880;
const LAST_YEAR: u32 = 2039;

/// Month lengths of a year with 365 days.
const MONTH_LENGTHS: [u32; 12] = [31, 28, 31, 30, 31, 30, 31, 31, 30, 31, 30, 31];

/// The Gregorian rule.
fn is_long(year: u32) -> bool {
    year.is_multiple_of(4) && !year.is_multiple_of(100) || year.is_multiple_of(400)
}

/// The long years from year 1 to the one named.
const fn long_years(year: u32) -> u32 {
    year / 4 - year / 100 + year / 400
}

fn month_length(year: u32, month: u32) -> u32 {
    let leap_day = u32::from(month == 2 && is_long(year));
    MONTH_LENGTHS[month as usize - 1] + leap_day
}

/// The day number of a date, if the calendar has it.
pub fn day_number(year: u32, month: u32, day: u32) -> Option<u32> {
    let known = (FIRST_YEAR..=LAST_YEAR).contains(&year) && (1..=12).contains(&month);
    if !known || day < 1 || day > month_length(year, month) {
        return None;
    }
    let leap_days = long_years(year - 1) - long_years(FIRST_YEAR - 1);
    let before_year = (year - FIRST_YEAR) * 365 + leap_days;
    let before_month: u32 = (1..month).map(|m| month_length(year, m)).sum();
    Some(before_year + before_month + day - 1)
}
