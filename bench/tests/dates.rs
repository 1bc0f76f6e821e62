//! The proved calendar beside the second program's: every day of the 160 years, and every date that could be typed.
use bench::all_dates;
use second::{day_number, LIMITS};
use std::fs::File;
use std::path::Path;
use std::process::Command;

const PROVED: &str = concat!(env!("CARGO_MANIFEST_DIR"), "/../target/bin/gust");
const SECOND: &str = env!("CARGO_BIN_EXE_counter");

extern "C" {
    fn gust_probe_day_number(year: u32, month: u32, day: u32) -> u32;
}

/// What the probe says of a date that the calendar lacks.
const NO_SUCH_DATE: u32 = 65_536;

fn proved(year: u32, month: u32, day: u32) -> Option<u32> {
    // Three numbers cross the boundary, and no memory is lent.
    let number = unsafe { gust_probe_day_number(year, month, day) };
    (number != NO_SUCH_DATE).then_some(number)
}

#[test]
fn every_date_has_the_same_number() {
    let mut next = 0;
    for (year, month, day) in all_dates() {
        let number = proved(year, month, day);
        assert_eq!(number, day_number(year, month, day), "{year}-{month}-{day}");
        if let Some(number) = number {
            assert_eq!(number, next, "{year}-{month}-{day} follows the day before");
            next += 1;
        }
    }
    assert_eq!(next, LIMITS[2] + 1, "the last date's number is the limit");
}

#[test]
fn numbers_that_no_date_has() {
    let odd = [
        0,
        1,
        2,
        12,
        31,
        1880,
        1900,
        2000,
        65_536 + 1900,
        u32::MAX - 1,
        u32::MAX,
    ];
    for year in odd {
        for month in odd {
            for day in odd {
                let second = day_number(year, month, day);
                assert_eq!(proved(year, month, day), second, "{year}-{month}-{day}");
            }
        }
    }
}

/// What a counter program answers to the lines of a file.
fn answers(program: &str, input: &Path) -> String {
    let input = File::open(input).expect("it was just written");
    let done = Command::new(program).stdin(input).output();
    let done = done.unwrap_or_else(|error| panic!("{program}: {error}"));
    assert!(done.status.success(), "{program} failed");
    String::from_utf8(done.stdout).expect("it writes letters")
}

#[test]
fn every_typed_date_is_read_alike() {
    let mut lines = String::new();
    for (year, month, day) in all_dates() {
        let date = format!("{year:04}-{month:02}-{day:02}");
        lines += &format!("ask 0 0 0 0 {date} {date}\n");
    }
    let input = Path::new(env!("CARGO_TARGET_TMPDIR")).join("dates");
    std::fs::write(&input, &lines).expect("there is room on the disk");
    let proved = answers(PROVED, &input);
    let second = answers(SECOND, &input);
    let answered = proved.lines().zip(second.lines());
    for (line, (ours, theirs)) in lines.lines().zip(answered) {
        assert_eq!(ours, theirs, "to {line}");
    }
    assert_eq!(proved, second);
    let count = |answer: &str| proved.lines().filter(|line| *line == answer).count();
    let dates = LIMITS[2] as usize + 1;
    assert_eq!(count("nothing pages 1"), dates);
    assert_eq!(count("refused 9"), all_dates().count() - dates);
}
