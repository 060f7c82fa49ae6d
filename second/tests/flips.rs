//! The making of calls and the comparison: a seed gives one script, scripts are read back as
//! they were written, and a flip is found and shortened to a few calls.

use selkavorn_second::flip::{Flip, FLIPS};
use selkavorn_second::run::run;
use selkavorn_second::script::{read_script, script_text, Call};
use selkavorn_second::{compare, gen, shrink};

/// Whether a flip changes a line of these calls.
fn shows(flip_number: usize, calls: &[Call]) -> bool {
    compare::flipped(flip_number, calls) != run(calls)
}

/// One test, because flips hold for the whole program.
#[test]
fn scripts_show_flips() {
    let calls = gen::script(7, 2_000);
    assert_eq!(calls, gen::script(7, 2_000));
    assert_eq!(read_script(&script_text(&calls)), Ok(calls.clone()));
    let right = run(&calls);
    let differs = |number: &usize| compare::flipped(*number, &calls) != right;
    let found: Vec<usize> = (1..=FLIPS.len()).filter(differs).collect();
    assert!(found.len() * 2 > FLIPS.len(), "only {found:?}");
    for number in [found[0], found[found.len() / 2], found[found.len() - 1]] {
        let shortest = shrink::shrink(&calls, &mut |calls| shows(number, calls));
        assert!(shows(number, &shortest));
        assert!(shortest.len() <= 40, "{}", script_text(&shortest));
    }
    // On damaged stores a flip may take a long way to show.
    let whole: Vec<Call> =
        calls.iter().filter(|call| !matches!(call, Call::Damage { .. })).cloned().collect();
    lots_are_shortened(&whole);
    loops_are_shortened(&whole);
    for_all_is_shortened(&whole);
    walks_are_shortened(calls);
}

/// The numbers of the flips whose names begin so and that these calls show.
fn shown(prefix: &str, calls: &[Call]) -> Vec<usize> {
    let named = |flip: &Flip| format!("{flip:?}").starts_with(prefix);
    let numbers = (1..).zip(FLIPS).filter(|(_, (flip, _))| named(flip)).map(|(number, _)| number);
    numbers.filter(|number| shows(*number, calls)).collect()
}

/// The shortest script that shows a wrong lot gives an instrument a book and asks for one lot.
fn lots_are_shortened(calls: &[Call]) {
    let found = shown("Lot", calls);
    assert!(found.len() >= 18, "only {found:?}");
    for number in found {
        let shortest = shrink::shrink(calls, &mut |calls| shows(number, calls));
        assert!(shows(number, &shortest));
        assert!(shortest.len() <= 6, "{}", script_text(&shortest));
        assert!(matches!(shortest.last(), Some(Call::Lot { .. })), "{}", script_text(&shortest));
    }
}

/// The shortest script that shows a wrong loop has few calls, the last of them a message, or an
/// opening that leaves the record.
fn loops_are_shortened(calls: &[Call]) {
    let found = shown("Loop", calls);
    assert!(found.len() >= 40, "only {found:?}");
    for number in found.into_iter().step_by(5) {
        let shortest = shrink::shrink(calls, &mut |calls| shows(number, calls));
        assert!(shows(number, &shortest));
        assert!(shortest.len() <= 12, "{}", script_text(&shortest));
        let last = if FLIPS[number - 1].0 == Flip::LoopOpeningLeaves { "open" } else { "feed" };
        assert_eq!(shortest.last().and_then(Call::function), Some(last), "{}", script_text(&shortest));
    }
}

/// The shortest script that shows a wrong J for all has few calls, the last of them a message.
fn for_all_is_shortened(calls: &[Call]) {
    let found = shown("All", calls);
    assert!(found.len() >= 25, "only {found:?}");
    for number in found.into_iter().step_by(5) {
        let shortest = shrink::shrink(calls, &mut |calls| shows(number, calls));
        assert!(shows(number, &shortest));
        assert!(shortest.len() <= 12, "{}", script_text(&shortest));
        assert_eq!(shortest.last().and_then(Call::function), Some("feed"), "{}", script_text(&shortest));
    }
}

/// The shortest script that shows a wrong walk is one walk of a short recording.
fn walks_are_shortened(calls: Vec<Call>) {
    let walks: Vec<Call> = calls.into_iter().filter(|call| call.function() == Some("salvage")).collect();
    let mut found = shown("Salvage", &walks);
    found.retain(|number| FLIPS[*number - 1].0 != Flip::SalvageLongestLost);
    assert!(found.len() >= 10, "only {found:?}");
    for number in found {
        let shortest = shrink::shrink(&walks, &mut |calls| shows(number, calls));
        assert!(shows(number, &shortest));
        let [Call::Salvage { room, recording, .. }] = &shortest[..] else { panic!("{shortest:?}") };
        assert!(recording.len() <= 420 && *room <= 20, "{}", script_text(&shortest));
    }
}
