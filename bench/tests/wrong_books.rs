//! The comparison finds wrong books, and shows each by a short run of calls.
use bench::runs::{Chooser, Style};
use bench::twice::{Call, Lent, Run, Said, Second, Side, Twice};
use bench::{Seed, DENSE};

/// The second program, spoilt: what it said and did is changed after each call.
struct Wrong(Second, fn(&Call, &mut Said, &mut Lent));

impl Side for Wrong {
    fn call(&mut self, call: &Call, lent: &mut Lent) -> Said {
        let mut said = self.0.call(call, lent);
        (self.1)(call, &mut said, lent);
        said
    }
}

fn wrong(change: fn(&Call, &mut Said, &mut Lent)) -> Wrong {
    Wrong(Second::default(), change)
}

const STYLE: Style = Style {
    name: "for wrong books",
    pages: &[30],
    spread: &DENSE,
    calls: 600,
    wide: 150,
    accidents: Some(20),
};

/// The calls of a run, as the second program answers them.
fn a_run(number: u64) -> Run {
    let mut seed = Seed::of(number);
    let pages = 4 + STYLE.pages(&mut seed);
    let mut chooser = Chooser::new(&STYLE, seed);
    let mut twice = Twice::new(Second::default(), Second::default(), Lent::new(pages));
    let mut calls = Vec::new();
    while calls.len() < STYLE.calls {
        let call = chooser.next(&twice.lent);
        let said = twice.call(&call).expect("a book agrees with itself");
        chooser.told(&call, &said);
        calls.push(call);
    }
    Run { pages, calls }
}

/// The shortest run that shows a wrong book, on one side or on both.
fn shown(change: fn(&Call, &mut Said, &mut Lent), on_both: bool) -> (Run, String) {
    let other = |on_both| match on_both {
        true => wrong(change),
        false => wrong(|_, _, _| ()),
    };
    let differs = |run: &Run| run.difference(wrong(change), other(on_both));
    let run = (0..20).map(a_run).find(|run| differs(run).is_some());
    let short = run
        .expect("some run shows it")
        .shortest(|run| differs(run).is_some());
    for at in 0..short.calls.len() {
        let mut fewer = short.clone();
        fewer.calls.remove(at);
        assert!(
            differs(&fewer).is_none(),
            "call {at} of {short:?} is not needed"
        );
    }
    let (_, what) = differs(&short).expect("the shortest run shows it too");
    (short, what)
}

#[test]
fn a_wrong_answer_is_shown() {
    let (run, what) = shown(
        |call, said, _| {
            if matches!(call, Call::Record(..)) && said.number == 0 && said.answer[0] == 1 {
                said.answer[0] = 0;
            }
        },
        false,
    );
    // Clearing, a record, and another that it cuts.
    assert!(
        run.calls.len() == 3 && what.contains("says"),
        "{run:?}: {what}"
    );
}

#[test]
fn a_wrong_word_is_shown() {
    let (run, what) = shown(
        |call, said, lent| {
            if *call == Call::Load && said.number == 4 {
                lent.table[1] = 1;
            }
        },
        false,
    );
    assert!(
        run.calls.len() <= 4 && what.contains("word 1 of page 0"),
        "{run:?}: {what}"
    );
}

#[test]
fn a_refusal_that_changes_something_is_shown_even_if_both_do_it() {
    let (run, what) = shown(
        |call, said, lent| {
            if matches!(call, Call::Record(..)) && said.number == 3 {
                lent.small[2] += 1;
            }
        },
        true,
    );
    assert!(
        run.calls.len() == 1 && what.contains("the small record"),
        "{run:?}: {what}"
    );
}
