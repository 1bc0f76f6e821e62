//! The counter program beside the second program's: transcripts made from a seed, handed over in pieces of any length.
//! A failure prints its seed and the shortest transcript that shows it; so does an answer that never came up.
use bench::twice::shortest;
use bench::{question, related, Record, Seed, Spread, DENSE, SPARSE};
use second::day_number;
use std::collections::BTreeMap;
use std::fs::File;
use std::io::{BufRead, BufReader, Read, Write};
use std::path::Path;
use std::process::{Command, Stdio};
use std::sync::LazyLock;
use std::time::Instant;

const PROVED: &str = concat!(env!("CARGO_MANIFEST_DIR"), "/../target/bin/gust");
const SECOND: &str = env!("CARGO_BIN_EXE_counter");

/// What a program answers to an input that arrives in pieces.
fn answers(program: &str, pieces: Vec<Vec<u8>>) -> Vec<u8> {
    let mut child = Command::new(program)
        .stdin(Stdio::piped())
        .stdout(Stdio::piped())
        .spawn()
        .unwrap_or_else(|error| panic!("{program}: {error}"));
    let mut input = child.stdin.take().expect("it is piped");
    let writer = std::thread::spawn(move || {
        for piece in pieces {
            input.write_all(&piece).expect("the program reads on");
        }
    });
    let mut said = Vec::new();
    let mut output = child.stdout.take().expect("it is piped");
    output.read_to_end(&mut said).expect("the program writes");
    writer.join().expect("all was written");
    assert!(child.wait().expect("it ends").success(), "{program} failed");
    said
}

/// Every date of the calendar as it is typed, in the order of their numbers.
static DATES: LazyLock<Vec<String>> = LazyLock::new(|| {
    let mut dates = Vec::new();
    for (year, month, day) in bench::all_dates() {
        if let Some(number) = day_number(year, month, day) {
            assert_eq!(number as usize, dates.len());
            dates.push(format!("{year}-{month:02}-{day:02}"));
        }
    }
    dates
});

fn date(day: u32) -> &'static str {
    &DATES[day as usize]
}

fn ends([e0, e1, n0, n1, d0, d1]: [u32; 6]) -> String {
    format!("{e0} {e1} {n0} {n1} {} {}", date(d0), date(d1))
}

fn add((place, gust): Record) -> Vec<u8> {
    format!("add {} {gust}", ends(place)).into_bytes()
}

/// Lines of none of the forms, and some of them that look wrong and are not.
const ODD: [&str; 44] = [
    "",
    " ",
    "add",
    "ask",
    "count ",
    " count",
    "count 1",
    "counts",
    "Count",
    "count\r",
    "count\t",
    "add 1 2 3 4 1900-01-01 1900-01-02",
    "add 1 2 3 4 1900-01-01 1900-01-02 5 6",
    "add 1 2 3 4 1900-01-01 1900-01-02 5 ",
    "add  1 2 3 4 1900-01-01 1900-01-02 5",
    "add 1 2 3 4 1900-01-01  1900-01-02 5",
    "add\t1 2 3 4 1900-01-01 1900-01-02 5",
    "add 1 2 3 4 1900-01-01 1900-01-02 5\r",
    "add 1 2 3 4 1900-01-01 1900-01-02 -5",
    "add 1 2 3 4 1900-01-01 1900-01-02 +5",
    "add 1 2 3 4 1900-01-01 1900-01-02 5.0",
    "add 1 2 3 4 1900-01-01 1900-01-02 000005",
    "add 1 2 3 4 1900-01-01 1900-01-02 100000",
    "add 1 2 3 4 1900-01-01 1900-01-02 99999",
    "add 1 2 3 4 1900-01-01 1900-01-02 1201",
    "add 1 99999 3 4 1900-01-01 1900-01-02 5",
    "add 99999 99999 3 4 1900-01-01 1900-01-02 99999",
    "add 00001 00002 00003 00004 1900-01-01 1900-01-02 00005",
    "add 1 2 3 65540 1900-01-01 1900-01-02 5",
    "ask 1 2 3 4 1900-02-30 1900-03-02",
    "ask 1 2 3 4 1900-02-29 1900-03-02",
    "ask 1 2 3 4 1901-02-29 1901-03-02",
    "ask 1 2 3 4 1900-04-31 1900-05-02",
    "ask 1 2 3 4 1900-00-01 1900-03-02",
    "ask 1 2 3 4 1900-13-01 1900-03-02",
    "ask 1 2 3 4 1900-01-00 1900-03-02",
    "ask 1 2 3 4 1879-12-31 1900-03-02",
    "ask 1 2 3 4 1900-01-01 2040-01-01",
    "ask 1 2 3 4 1880-01-01 2039-12-31",
    "ask 1 2 3 4 1900-03-02 1900-03-01",
    "ask 1 2 3 4 1900-1-01 1900-03-02",
    "ask 1 2 3 4 1900/01/01 1900-03-02",
    "ask 1 2 3 4 01900-01-01 1900-03-02",
    "ask 1 2 3 4 1900-01-01 1900-03-02 5",
];

fn odd_line(seed: &mut Seed) -> Vec<u8> {
    let mut line = seed.pick(&ODD).as_bytes().to_vec();
    match seed.below(6) {
        0 => {
            // Up to the longest line, one more, and far more.
            let long = seed.pick(&[79, 80, 81, 82, 160, 5_000]);
            line.resize(long, seed.pick(b" 0x"));
        }
        1 if !line.is_empty() => {
            let at = seed.below(line.len() as u32) as usize;
            line[at] = seed.pick(&[0, 255, b' ', b'\r', b'\t', b'/', b':', b'9']);
        }
        2 if !line.is_empty() => {
            line.remove(seed.below(line.len() as u32) as usize);
        }
        3 => line.insert(
            seed.below(line.len() as u32 + 1) as usize,
            seed.pick(b" 09-\r\0"),
        ),
        _ => {}
    }
    line.retain(|byte| *byte != b'\n');
    line
}

/// A transcript's lines: so many in a hundred are questions, and so many odd.
fn lines(many: usize, asks: u32, odd: u32, spread: &Spread, seed: &mut Seed) -> Vec<Vec<u8>> {
    let mut earlier: Vec<Record> = Vec::new();
    let mut next = || match seed.below(100) {
        0 => b"count".to_vec(),
        n if n <= asks => {
            let place = match seed.one_in(2) {
                true => question(seed.pick(&[1, 1_000, 100_000]), seed),
                false => spread.place(seed),
            };
            format!("ask {}", ends(place)).into_bytes()
        }
        n if n <= asks + odd => odd_line(seed),
        _ => {
            let mut new = spread.record(seed);
            if !earlier.is_empty() && seed.one_in(3) {
                let (old, gust) = seed.pick(&earlier);
                new = (related(old, seed), gust.saturating_sub(seed.below(2)));
            }
            earlier.push(new);
            add(new)
        }
    };
    (0..many).map(|_| next()).collect()
}

/// The lines as bytes, in pieces of any length; the last byte may be missing.
fn pieces(lines: &[Vec<u8>], seed: &mut Seed) -> Vec<Vec<u8>> {
    let mut bytes: Vec<u8> = lines
        .iter()
        .flat_map(|line| [line, &b"\n"[..]].concat())
        .collect();
    if seed.one_in(3) {
        bytes.pop();
    }
    // A long input in not too many of them.
    let most = seed
        .pick(&[1, 7, 100, 5_000, 100_000])
        .max(bytes.len() as u32 / 50_000);
    let (mut pieces, mut rest) = (Vec::new(), &bytes[..]);
    while !rest.is_empty() {
        let (piece, more) = rest.split_at((1 + seed.below(most) as usize).min(rest.len()));
        pieces.push(piece.to_vec());
        rest = more;
    }
    pieces
}

/// What both answer; nothing if they differ.
fn agreed(lines: &[Vec<u8>], seed: u64) -> Option<Vec<u8>> {
    let proved = answers(PROVED, pieces(lines, &mut Seed::of(seed)));
    let second = answers(SECOND, pieces(lines, &mut Seed::of(seed)));
    (proved == second).then_some(proved)
}

fn fail(lines: Vec<Vec<u8>>, seed: u64) -> ! {
    let short = shortest(lines, |lines| agreed(lines, seed).is_none());
    eprintln!("transcript {seed}: the programs differ. The shortest transcript found:");
    for line in &short {
        eprintln!("    {}", line.escape_ascii());
    }
    for program in [PROVED, SECOND] {
        let said = answers(program, pieces(&short, &mut Seed::of(seed)));
        eprintln!("{program} answers:\n{}", said.escape_ascii());
    }
    std::process::exit(1);
}

/// An answer without its numbers, but for a refusal's.
fn kind(line: &[u8]) -> String {
    let line = String::from_utf8_lossy(line);
    match line.starts_with("refused") {
        true => line.into_owned(),
        false => line.split(' ').next().unwrap_or_default().to_owned(),
    }
}

/// How long a program takes over a file.
fn served(program: &str, input: &Path) -> f64 {
    let input = File::open(input).expect("it was just written");
    let mut command = Command::new(program);
    let command = command.stdin(input).stdout(Stdio::null());
    let start = Instant::now();
    assert!(
        command.status().expect("it runs").success(),
        "{program} failed"
    );
    start.elapsed().as_secs_f64()
}

/// 200,000 lines, half of them questions, by both programs in turn. Dense records strike and cover each other, so that
/// the book is not soon full.
fn speed() {
    let lines = lines(200_000, 50, 0, &DENSE, &mut Seed::of(1));
    assert!(
        agreed(&lines, 1).is_some(),
        "the long transcript is answered alike"
    );
    let input = Path::new(env!("CARGO_TARGET_TMPDIR")).join("lines");
    std::fs::write(&input, lines.join(&b'\n')).expect("there is room on the disk");
    let round = |_| (served(PROVED, &input), served(SECOND, &input));
    let mut took: Vec<(f64, f64)> = (0..21).map(round).collect();
    took.sort_by(|a, b| (a.0 / a.1).total_cmp(&(b.0 / b.1)));
    let (ours, theirs) = took[took.len() / 2];
    let ratio = ours / theirs;
    println!("200,000 lines, half questions: {ours:.3} s, second program {theirs:.3} s, ratio {ratio:.2}");
}

/// A clerk at a keyboard reads each answer before the next line is typed.
fn at_once() {
    let mut child = Command::new(PROVED)
        .stdin(Stdio::piped())
        .stdout(Stdio::piped())
        .spawn()
        .expect("it starts");
    let mut input = child.stdin.take().expect("it is piped");
    let mut output = BufReader::new(child.stdout.take().expect("it is piped"));
    for (line, answer) in [
        ("add 1 2 3 4 1900-01-01 1900-01-02 5", "kept struck 0\n"),
        ("ask 2 9 4 9 1900-01-02 1900-02-02", "gust 5 pages 1\n"),
        ("asks", "refused 9\n"),
    ] {
        // The end of a line alone calls for its answer, wherever the bytes before it were cut.
        let (first, rest) = line.split_at(3);
        for piece in [first, rest, "\n"] {
            input.write_all(piece.as_bytes()).expect("it reads on");
        }
        let mut said = String::new();
        output.read_line(&mut said).expect("it answers");
        assert_eq!(said, answer, "to {line}");
    }
    drop(input);
    assert!(child.wait().expect("it ends").success());
}

/// An input that cannot be read and an output that cannot be written end it cleanly.
fn ends_cleanly() {
    let folder = File::open(env!("CARGO_MANIFEST_DIR")).expect("it is there");
    let done = Command::new(PROVED)
        .stdin(folder)
        .output()
        .expect("it runs");
    assert!(done.status.success() && done.stdout.is_empty());
    // Opened for reading alone.
    let unwritable = File::open(PROVED).expect("it is there");
    let mut child = Command::new(PROVED)
        .stdin(Stdio::piped())
        .stdout(unwritable)
        .spawn()
        .expect("it starts");
    let mut input = child.stdin.take().expect("it is piped");
    input.write_all(b"count\n").expect("it reads");
    drop(input);
    assert!(child.wait().expect("it ends").success());
}

const KINDS: [&str; 10] = [
    "kept",
    "cut",
    "covered",
    "gust",
    "nothing",
    "accepted",
    "refused 2",
    "refused 3",
    "refused 6",
    "refused 9",
];

fn main() {
    if !Path::new(PROVED).exists() {
        eprintln!("target/bin/gust is not there: './gust' builds it.");
        std::process::exit(1);
    }
    at_once();
    ends_cleanly();
    let mut seen: BTreeMap<String, usize> = BTreeMap::new();
    for number in 0..300 {
        let seed = &mut Seed::of(number);
        let spread = seed.pick(&[&SPARSE, &DENSE]);
        let many = seed.pick(&[0, 1, 3, 30, 300, 2_500]);
        let odd = seed.pick(&[5, 30, 60]);
        let lines = lines(many, 25, odd, spread, seed);
        let Some(said) = agreed(&lines, number) else {
            fail(lines, number);
        };
        for line in said
            .split(|byte| *byte == b'\n')
            .filter(|line| !line.is_empty())
        {
            *seen.entry(kind(line)).or_default() += 1;
        }
    }
    println!("answers: {seen:?}");
    let missing: Vec<_> = KINDS
        .iter()
        .filter(|kind| !seen.contains_key(**kind))
        .collect();
    assert!(
        missing.is_empty() && seen.len() == KINDS.len(),
        "never seen: {missing:?}"
    );
    speed();
}
