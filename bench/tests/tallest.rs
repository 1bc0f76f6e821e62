//! The tallest books, within 1 MiB of stack. One test in a file by itself: a thread that ended before would leave its larger stack to the next.
use bench::twice::{sides, Call, Lent, Said, Twice};
use bench::{chain, two_chains, Seed, WHOLE};

const LEFT: [u16; 6] = [0, 9, 0, 9, 0, 9];
const RIGHT: [u16; 6] = [100, 109, 0, 9, 0, 9];
const CORNER: [u32; 6] = [0; 6];

fn lent((table, small): (Vec<u16>, [u32; 5])) -> Lent {
    let image = vec![0; gustbook::image_bytes(4_096)];
    Lent {
        table,
        small,
        image,
    }
}

/// Makes the calls on both sides: the last answer, and the small record afterwards.
fn made(start: Lent, calls: &[Call]) -> (Said, [u32; 5]) {
    let (proved, second) = sides();
    let mut twice = Twice::new(proved, second, start);
    let mut said = None;
    for call in calls {
        said = Some(
            twice
                .call(call)
                .unwrap_or_else(|what| panic!("{call:?}: {what}")),
        );
    }
    (said.expect("there was a call"), twice.lent.small)
}

fn answer(calls: &[Call], start: Lent) -> (u32, [u32; 2], [u32; 5]) {
    let (said, small) = made(start, calls);
    (said.number, [said.answer[0], said.answer[1]], small)
}

/// The tallest book that still takes a record has 1,365 levels.
fn recorded_in() {
    let book = || lent(two_chains(1_364, [LEFT, RIGHT], 100));
    // To the deepest leaf and back.
    let said = answer(&[Call::Record([5, 12, 3, 20, 0, 9], 50)], book());
    assert_eq!(said, (0, [0, 0], [0, 1_365, 3, 0, 0]));
    // One chain is struck, and what is left collapses to a leaf.
    let (number, told, small) = answer(&[Call::Record([0, 104, 0, 9, 0, 9], 100)], book());
    assert_eq!((number, told, small[1]), (0, [1, 1], 1));
    // Both are struck.
    let said = answer(&[Call::Record(WHOLE, 100)], book());
    assert_eq!(said, (0, [0, 2], [0, 1, 3, 2, 0]));
}

/// The tallest book of all has 2,048 levels, and no room.
fn read_in() {
    let book = || lent(two_chains(2_047, [LEFT, RIGHT], 100));
    let calls = [
        Call::Count,
        Call::Save,
        Call::Clear,
        Call::Load,
        Call::Count,
    ];
    let (said, small) = made(book(), &calls);
    assert_eq!((said.number, said.answer), (0, [2, 2, 0, 0]));
    assert_eq!(small, [0, 2_048, 2, 0, 0]);
    assert_eq!(made(book(), &[Call::Record(CORNER, 50)]).0.number, 6);
    let (said, _) = made(book(), &[Call::Ask(CORNER)]);
    assert_eq!(said.answer[..3], [1, 100, 1]);
}

/// A spoilt book whose pages are opened one below the other, all 4,096 of them.
fn opened_to_the_end() {
    let (said, _) = made(lent(chain(4_096)), &[Call::Ask(CORNER)]);
    assert_eq!((said.number, &said.answer[..3]), (0, &[1, 7, 4_096][..]));
    for call in [Call::Count, Call::Save, Call::Record(CORNER, 1)] {
        assert_eq!(made(lent(chain(4_096)), &[call]).0.number, 4);
    }
}

/// Tall books with some words changed.
fn spoilt(run: u64) -> Said {
    let mut seed = Seed::of(run);
    let tall = match run % 3 {
        0 => chain(4_096),
        1 => two_chains(1_364, [LEFT, RIGHT], 100),
        _ => two_chains(2_047, [LEFT, RIGHT], 100),
    };
    let start = lent(tall);
    let mut calls = Vec::new();
    for _ in 0..1 + seed.below(3) {
        let at = seed.below(4_096) as usize * 170 + seed.below(17) as usize;
        let word = start.table[at].wrapping_add(seed.pick(&[1, u16::MAX, 2_000]));
        calls.push(Call::Word(at, word));
    }
    let gust = seed.below(200);
    calls.extend([
        Call::Count,
        Call::Save,
        Call::Load,
        Call::Record(WHOLE, gust),
    ]);
    calls.push(Call::Ask(seed.pick(&[
        CORNER,
        WHOLE,
        [100; 6],
        [0, 4_000, 0, 9, 0, 9],
    ])));
    made(start, &calls).0
}

#[test]
fn the_tallest_books_fit_a_small_stack() {
    let thread = std::thread::Builder::new().stack_size(1 << 20);
    let all = thread.spawn(|| {
        recorded_in();
        read_in();
        opened_to_the_end();
        let said: Vec<Said> = (0..120).map(spoilt).collect();
        let refused = said.iter().filter(|said| said.number == 4).count();
        let deep = said
            .iter()
            .filter(|said| said.number == 0 && said.answer[2] > 1_000);
        assert!(refused > 0 && deep.count() > 10, "{refused} refused");
    });
    all.expect("a thread starts").join().expect("it ends");
}
