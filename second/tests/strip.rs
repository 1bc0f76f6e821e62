//! One site by days, from the request and section 6 of source 001.
use second::{Refusal, Strip, LIMITS, MOST_SEGMENTS};

const LAST: u32 = LIMITS[2];

fn word(last: u32, value: u32) -> u32 {
    last << 16 | value
}

/// The three objects of source 001's figure 15, in whole days: six segments, and the question that crosses two of them.
#[test]
fn the_figure_of_source_001() {
    let mut strip = Strip::nothing();
    for (days, gust) in [([5, 9], 2), ([10, 19], 4), ([35, 44], 3)] {
        assert_eq!(strip.record(days, gust), Ok(()));
    }
    let six = [
        word(4, 0),
        word(9, 3),
        word(19, 5),
        word(34, 0),
        word(44, 4),
        word(LAST, 0),
    ];
    assert!(strip.is_written(&six, 6));
    assert_eq!(strip.segments(), 6);
    assert_eq!(strip.ask([8, 12]), Ok(Some(4)));
    assert_eq!(strip.ask([20, 34]), Ok(None));
    assert_eq!(strip.ask([0, LAST]), Ok(Some(4)));
}

/// A day is raised and never lowered; calm is not nothing; alike neighbours are one segment.
#[test]
fn raised_to_the_greater() {
    let mut strip = Strip::nothing();
    assert_eq!(strip.record([100, 200], 0), Ok(()));
    assert_eq!(strip.ask([150, 150]), Ok(Some(0)));
    assert_eq!(strip.record([150, 250], 7), Ok(()));
    assert_eq!(strip.record([201, 300], 5), Ok(()));
    assert_eq!(strip.ask([250, 250]), Ok(Some(7)));
    assert_eq!(strip.ask([251, 300]), Ok(Some(5)));
    assert_eq!(strip.record([251, 300], 7), Ok(()));
    assert_eq!(strip.segments(), 4);
}

#[test]
fn refusals() {
    let mut strip = Strip::nothing();
    assert_eq!(strip.record([5, 4], 1_201), Err(Refusal::Box));
    assert_eq!(strip.record([0, LAST + 1], 0), Err(Refusal::Box));
    assert_eq!(strip.record([0, LAST], 1_201), Err(Refusal::Gust));
    assert_eq!(strip.record([0, LAST], 1_200), Ok(()));
    assert_eq!(strip.ask([1, 0]), Err(Refusal::Box));
}

/// 1,023 segments take no more single day in the open, but one that joins with a neighbour, and any that covers.
#[test]
fn more_than_1_024_segments() {
    let mut strip = Strip::nothing();
    for k in 0..511 {
        assert_eq!(strip.record([10 * k + 5, 10 * k + 5], 3), Ok(()));
    }
    assert_eq!(strip.segments(), 1_023);
    let before = strip.clone();
    assert_eq!(strip.record([20_000, 20_000], 3), Err(Refusal::Strip));
    assert_eq!(strip.ask([20_000, 20_000]), Ok(None));
    assert_eq!(strip.record([LAST, LAST], 3), Ok(()));
    assert_eq!(strip.segments(), MOST_SEGMENTS);
    let mut other = before;
    assert_eq!(other.record([6, 14], 3), Ok(()));
    assert_eq!(other.segments(), 1_021);
    assert_eq!(strip.record([0, LAST], 3), Ok(()));
    assert_eq!(strip.segments(), 1);
}

/// What is no parting of all days is not read.
#[test]
fn spoilt() {
    let read = |words: &[u32]| {
        let mut lent = [0; MOST_SEGMENTS];
        lent[..words.len()].copy_from_slice(words);
        Strip::read(&lent, words.len() as u32).is_some()
    };
    assert!(read(&[word(LAST, 0)]));
    assert!(read(&[word(0, 0), word(LAST, 1_201)]));
    assert!(!read(&[]));
    assert!(!read(&[word(LAST - 1, 0)]));
    assert!(!read(&[word(LAST + 1, 0)]));
    assert!(!read(&[word(4, 1), word(LAST, 1)]));
    assert!(!read(&[word(4, 1), word(4, 2), word(LAST, 1)]));
    assert!(!read(&[word(4, 1_202), word(LAST, 1)]));
    assert!(!read(&[word(LAST, 1), word(LAST, 2)]));
    assert!(Strip::read(&[word(LAST, 0); 1_023], 1).is_none());
    assert!(Strip::read(&[word(LAST, 0); 1_024], 1_025).is_none());
}
