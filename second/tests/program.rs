//! The counter program, as a process of its own and fed in pieces.

mod common;

use std::io::{BufRead, BufReader, Read, Write};
use std::process::{Child, Command, Stdio};

use common::{next_box, Book, Rng, Style};
use second::{Counter, Verdict};

fn start() -> Child {
    Command::new(env!("CARGO_BIN_EXE_counter"))
        .stdin(Stdio::piped())
        .stdout(Stdio::piped())
        .spawn()
        .unwrap()
}

/// The program's whole output for an input.
fn run(input: &[u8]) -> String {
    let mut child = start();
    let mut pipe = child.stdin.take().unwrap();
    let mut output = child.stdout.take().unwrap();
    let reader = std::thread::spawn(move || {
        let mut text = String::new();
        output.read_to_string(&mut text).unwrap();
        text
    });
    pipe.write_all(input).unwrap();
    drop(pipe);
    assert!(child.wait().unwrap().success());
    reader.join().unwrap()
}

#[test]
fn answers_come_before_the_next_line_is_sent() {
    let mut child = start();
    let mut pipe = child.stdin.take().unwrap();
    let mut answers = BufReader::new(child.stdout.take().unwrap());
    for (line, expected) in [
        (
            "add 10 19 10 19 1900-01-01 1900-01-10 250\n",
            "kept struck 0\n",
        ),
        (
            "ask 19 25 19 25 1900-01-10 1900-02-01\n",
            "gust 250 pages 1\n",
        ),
        ("count\n", "accepted 1 held 1 struck 0 covered 0\n"),
    ] {
        // A line may also arrive in two pieces.
        let (start, end) = line.split_at(3);
        pipe.write_all(start.as_bytes()).unwrap();
        pipe.flush().unwrap();
        pipe.write_all(end.as_bytes()).unwrap();
        let mut answer = String::new();
        answers.read_line(&mut answer).unwrap();
        assert_eq!(answer, expected);
    }
    drop(pipe);
    assert!(child.wait().unwrap().success());
}

#[test]
fn the_last_line_may_lack_its_end() {
    assert_eq!(run(b""), "");
    assert_eq!(run(b"\n"), "refused 9\n");
    assert_eq!(run(b"\n\n"), "refused 9\nrefused 9\n");
    assert_eq!(run(b"count"), "accepted 0 held 0 struck 0 covered 0\n");
    assert_eq!(
        run(b"count\nx"),
        "accepted 0 held 0 struck 0 covered 0\nrefused 9\n"
    );
}

#[test]
fn long_lines_are_refused_once() {
    let mut input = vec![b'a'; 10_000_000];
    input.extend(b"\ncount\n");
    input.extend(vec![b' '; 300_000]);
    let expected = "refused 9\naccepted 0 held 0 struck 0 covered 0\nrefused 9\n";
    assert_eq!(run(&input), expected);
}

fn one(line: &str) -> String {
    let mut out = vec![];
    let mut counter = Counter::new();
    counter.feed(line.as_bytes(), &mut out).unwrap();
    counter.finish(&mut out).unwrap();
    String::from_utf8(out).unwrap()
}

const BAD_LINES: [&str; 35] = [
    " count",
    "count ",
    "count\r",
    "Count",
    "count 1",
    "counts",
    "add",
    "ask",
    "add 1 2 3 4 1900-01-01 1900-01-02",
    "add 1 2 3 4 1900-01-01 1900-01-02 5 6",
    "add 1 2 3 4 1900-01-01 1900-01-02 5 ",
    "add  1 2 3 4 1900-01-01 1900-01-02 5",
    "add\t1 2 3 4 1900-01-01 1900-01-02 5",
    "ask 1 2 3 4 1900-01-01 1900-01-02 5",
    "ask 1 2 3 1900-01-01 1900-01-02",
    "ask 000001 2 3 4 1900-01-01 1900-01-02",
    "ask -1 2 3 4 1900-01-01 1900-01-02",
    "ask +1 2 3 4 1900-01-01 1900-01-02",
    "ask 1a 2 3 4 1900-01-01 1900-01-02",
    "ask 1 2 3 4 1900-1-01 1900-01-02",
    "ask 1 2 3 4 1900/01/01 1900-01-02",
    "ask 1 2 3 4 1879-12-31 1900-01-02",
    "ask 1 2 3 4 1900-01-01 2040-01-01",
    "ask 1 2 3 4 1900-00-01 1900-01-02",
    "ask 1 2 3 4 1900-13-01 1900-01-02",
    "ask 1 2 3 4 1901-02-29 1901-03-02",
    "ask 1 2 3 4 1900-02-29 1900-03-02",
    "ask 1 2 3 4 1900-04-31 1900-05-02",
    "ask 1 2 3 4 1900-01-00 1900-01-02",
    "ask 1 2 3 4 01900-01-1 1900-01-02",
    "ask 1 2 3 4 1900-01-01 1900-01-021",
    "ask 1 2 3 4 1900-01-01 1900-01-02 ",
    "ask 1 2 3 4  1900-01-01 1900-01-02",
    "ask 1\u{0} 2 3 4 1900-01-01 1900-01-02",
    "ask \u{661} 2 3 4 1900-01-01 1900-01-02",
];

#[test]
fn lines_of_other_forms() {
    for line in BAD_LINES {
        assert_eq!(one(line), "refused 9\n", "{line:?}");
    }
    for spaces in [75, 76] {
        let long = format!("count{}", " ".repeat(spaces));
        assert_eq!(one(&long), "refused 9\n");
    }
}

#[test]
fn lines_that_are_read_and_then_refused_or_answered() {
    let lines = [
        (
            "add 00010 00019 1 2 2000-02-29 2000-02-29 00250",
            "kept struck 0\n",
        ),
        ("add 99999 99999 1 2 1900-01-01 1900-01-01 1", "refused 2\n"),
        ("add 0 65536 1 2 1900-01-01 1900-01-01 1", "refused 2\n"),
        ("add 0 4096 1 2 1900-01-01 1900-01-01 1", "refused 2\n"),
        ("add 0 4095 1 2 1900-01-02 1900-01-01 1", "refused 2\n"),
        ("add 0 4095 1 2 1900-01-01 1900-01-01 1201", "refused 3\n"),
        ("add 0 4095 1 2 1900-01-01 1900-01-01 66736", "refused 3\n"),
        ("add 0 4095 1 2 1900-01-01 1900-01-01 99999", "refused 3\n"),
        ("add 5 4 1 2 1900-01-01 1900-01-01 99999", "refused 2\n"),
        ("ask 5 4 1 2 1900-01-01 1900-01-01", "refused 2\n"),
        ("ask 0 0 0 0 1880-01-01 2039-12-31", "nothing pages 1\n"),
    ];
    for (line, answer) in lines {
        assert_eq!(one(line), answer, "{line:?}");
    }
}

/// The same lines give the same answers however they are cut into pieces.
#[test]
fn pieces_of_any_length() {
    let text = "add 10 19 10 19 1900-01-01 1900-01-10 250\n\nx\nask 10 10 10 10 1900-01-01 \
                1900-01-10\ncount\nadd 1 2 3 4 5 6 7 8 9 10 11 12 13 14 15 16 17 18 19 20 21 22 \
                23 24 25 26 27 28 29 30 31 32 33 34 35\ncount";
    let expected = "kept struck 0\nrefused 9\nrefused 9\ngust 250 pages 1\n\
                    accepted 1 held 1 struck 0 covered 0\nrefused 9\n\
                    accepted 1 held 1 struck 0 covered 0\n";
    for length in 1..=text.len() {
        let mut counter = Counter::new();
        let mut out = vec![];
        for piece in text.as_bytes().chunks(length) {
            counter.feed(piece, &mut out).unwrap();
        }
        counter.finish(&mut out).unwrap();
        assert_eq!(
            String::from_utf8(out).unwrap(),
            expected,
            "pieces of {length}"
        );
    }
}

fn date(day: u32) -> String {
    let find = |year: u32, month: u32| second::day_number(year, month, 1);
    for year in (1880..2040).rev() {
        for month in (1..=12).rev() {
            match find(year, month) {
                Some(first) if first <= day => {
                    return format!("{year}-{month:02}-{:02}", day - first + 1)
                }
                _ => {}
            }
        }
    }
    unreachable!()
}

/// The line that the program should print for a record.
fn expected_record(book: &mut Book, ends: [u32; 6], gust: u32) -> String {
    match book.record(ends, gust) {
        Ok(done) => {
            let word = match done.verdict {
                Verdict::Kept => "kept",
                Verdict::Cut => "cut",
                Verdict::Covered => "covered",
            };
            format!("{word} struck {}\n", done.struck)
        }
        Err(refusal) => format!("refused {}\n", refusal.number()),
    }
}

/// The line that the program should print for a question.
fn expected_answer(book: &Book, ends: [u32; 6]) -> String {
    let answer = book.ask(ends).unwrap();
    match answer.gust {
        Some(gust) => format!("gust {gust} pages {}\n", answer.pages),
        None => format!("nothing pages {}\n", answer.pages),
    }
}

/// A long random input gives what the calls give, and the table fills up on the way.
#[test]
fn many_lines() {
    let mut rng = Rng::new(31);
    let mut book = Book::new(180);
    let (mut input, mut expected) = (String::new(), String::new());
    for _ in 0..6_000 {
        let style = [Style::Sparse, Style::Dense, Style::Regions][rng.below(3) as usize];
        let ends = next_box(&mut rng, style, &[]);
        let gust = rng.below(1_300);
        let [a, b, c, d, e, f] = ends;
        let (e, f) = (date(e), date(f));
        if rng.one_in(4) {
            input += &format!("ask {a} {b} {c} {d} {e} {f}\n");
            expected += &expected_answer(&book, ends);
        } else {
            input += &format!("add {a} {b} {c} {d} {e} {f} {gust}\n");
            expected += &expected_record(&mut book, ends, gust);
        }
    }
    assert!(expected.matches("refused 6").count() > 100);
    assert_eq!(run(input.as_bytes()), expected);
}
