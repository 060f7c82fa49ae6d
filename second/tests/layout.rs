//! The store's layout: a channel's numbers read back, each number just outside its range is unsound,
//! whatever store it stands in, and so is a store of a layout before this one.

use selkavorn_second::gen::damage::{just_outside, loop_edges, range};
use selkavorn_second::gen::{script, sweep};
use selkavorn_second::keeper::Keeper;
use selkavorn_second::layout::{
    read, record, side, slot, words, AT_COME, AT_DEPTH, AT_FOLLOWED, AT_LAYOUT, AT_LOWEST, AT_MARKS,
    AT_NAMED, AT_QUEUED, AT_REPORTS, J_FOR_ALL, LAYOUT, NUMBERS, OLDER_LAYOUTS,
};
use selkavorn_second::run::run_plainly;
use selkavorn_second::script::{read_script, Call};

/// The stores that a script leads through, every `step` calls.
fn stores(seed: u64, step: usize) -> Vec<Vec<u64>> {
    let mut keeper = Keeper::default();
    let mut stores = Vec::new();
    for (i, call) in script(seed, 1_000).iter().enumerate() {
        run_plainly(&mut keeper, call);
        if keeper.channel.is_some() && i % step == 0 {
            stores.push(keeper.words());
        }
    }
    stores
}

#[test]
fn stores_read_back() {
    for store in (1..=8).flat_map(|seed| stores(seed, 7)) {
        assert_eq!(store.len(), NUMBERS);
        assert_eq!(read(&store).map(|channel| words(&channel)), Some(store));
    }
}

#[test]
fn just_outside_is_unsound() {
    for mut store in (1..=8).flat_map(|seed| stores(seed, 301)) {
        for (index, value) in just_outside(&store) {
            let whole = std::mem::replace(&mut store[index as usize], value);
            assert!(read(&store).is_none(), "{index} = {value}, was {whole}");
            store[index as usize] = whole;
        }
    }
}

/// A board of instrument 7 with a bid.
const BOARD: &str = "open 7168 0 7
feed 7168 8=FIX.4.4|9=41|35=X|34=1|52=20250103-13:00:00.000|268=0|10=148|
feed 7168 8=FIX.4.4|9=121|35=W|34=1|52=20250103-13:00:00.000|48=7|22=8|369=1|911=1|268=1|269=0|270=-0.5|271=5|37=A|272=20250103|273=12:00:00|290=1|10=022|";

/// Each call that takes a store, so that it is done.
const CALLS: &str = "quote 7168 7 20250103-13:00:00 30 17
state 7168 7 4
board 7168 5
write 7168 7 SHED YARD 1 1 20250103-13:00:00 4307
sell 7168 7 5 20250103-13:00:00 30 5
buy 7168 7 5 20250103-13:00:00 30 5
feed 7168 8=FIX.4.4|9=41|35=X|34=2|52=20250103-13:00:00.000|268=0|10=149|";

/// That board's store with one number set.
fn store_with(at: usize, number: u64) -> Vec<u64> {
    let mut keeper = Keeper::default();
    for call in read_script(BOARD).unwrap() {
        run_plainly(&mut keeper, &call);
    }
    let mut store = keeper.words();
    store[at] = number;
    store
}

/// The answer number of a call on a store.
fn answer(store: &[u64], call: &Call) -> String {
    let (line, _) = run_plainly(&mut Keeper::of_words(store), call);
    String::from(line.split(' ').nth(1).unwrap())
}

/// A store of every layout before is 17 on every call, until it is opened afresh.
#[test]
fn older_stores_are_17() {
    assert_eq!((LAYOUT, OLDER_LAYOUTS), (4_603, [4_601, 4_602]));
    let calls = read_script(CALLS).unwrap();
    for call in &calls {
        assert_eq!(answer(&store_with(AT_LAYOUT, LAYOUT), call), "0", "{}", call.line());
    }
    for older in OLDER_LAYOUTS {
        let store = store_with(AT_LAYOUT, older);
        for call in &calls {
            assert_eq!(answer(&store, call), "17", "{older}: {}", call.line());
        }
        let mut keeper = Keeper::of_words(&store);
        assert_eq!(keeper.open(NUMBERS as u64, 0, &[7]), 0);
        assert_eq!(keeper.words()[AT_LAYOUT], LAYOUT);
    }
}

/// A price of 9 digits and 8 decimals is the greatest that is held, of either sign.
#[test]
fn prices_are_held_in_their_range() {
    let held = |word: u64| {
        let channel = read(&store_with(side(0, 0) + 1, word))?;
        Some(channel.instruments[0].book.bids[0].price)
    };
    assert_eq!(held(19_999_999_999_999_999), Some(-10_000_000_000_000_000));
    assert_eq!(held(199_999_999_999_999_997), Some(-99_999_999_999_999_999));
    assert_eq!(held(199_999_999_999_999_998), Some(99_999_999_999_999_999));
    for word in [199_999_999_999_999_999, 200_000_000_000_000_000, u64::MAX] {
        assert_eq!(held(word), None);
    }
}

/// But for SecurityIDs, which don't repeat, the marks and the depth kind, which books depend on.
#[test]
fn bounds_are_sound() {
    for mut store in (1..=8).flat_map(|seed| stores(seed, 301)) {
        for index in 0..NUMBERS {
            let is_record = (record(0)..record(16)).contains(&index);
            if is_record || index == AT_MARKS || index == AT_DEPTH {
                continue;
            }
            let (low, high) = range(&store, index);
            for value in [low, high] {
                let whole = std::mem::replace(&mut store[index], value);
                assert!(read(&store).is_some(), "{index} = {value}, was {whole}");
                store[index] = whole;
            }
        }
    }
}

/// The loop record of a store: either all four numbers are 0, or each is in its range.
fn loop_is_sound(store: &[u64]) -> bool {
    let most = 4_294_967_295;
    let [reports, come, lowest, named] = [AT_REPORTS, AT_COME, AT_LOWEST, AT_NAMED].map(|at| store[at]);
    let runs = (2..=most).contains(&reports)
        && (1..reports).contains(&come)
        && lowest <= most
        && named < 1 << store[AT_FOLLOWED];
    runs || [reports, come, lowest, named] == [0; 4]
}

#[test]
fn loop_records_are_sound_or_not() {
    let mut met = [0, 0];
    for store in (1..=8).flat_map(|seed| stores(seed, 301)) {
        for changes in loop_edges(&store) {
            let mut changed = store.clone();
            changes.iter().for_each(|(index, value)| changed[*index as usize] = *value);
            let sound = read(&changed).is_some();
            assert_eq!(sound, loop_is_sound(&changed), "{changes:?}");
            met[usize::from(sound)] += 1;
        }
    }
    assert!(met[0] > 100 && met[1] > 100, "{met:?}");
}

/// A sweep's store has a loop that runs, and is swept with each record of the edges too.
#[test]
fn a_sweep_meets_loops() {
    for seed in 1..=2 {
        let calls = sweep(seed);
        let changes_of = |call: &Call| match call {
            Call::Damage { changes, .. } => Some(changes.clone()),
            _ => None,
        };
        let changed: Vec<_> = calls.iter().rev().map_while(changes_of).collect();
        let outside =
            |at: usize| changed.iter().any(|it| it.len() == 1 && it[0].0 == at as u64 && it[0].1 > 1);
        assert!([AT_REPORTS, AT_COME, AT_LOWEST, AT_NAMED].into_iter().all(outside));
        let records = changed.iter().filter(|it| it.len() == 4 && it[0].0 == AT_REPORTS as u64);
        assert!(records.count() > 20);
    }
}

/// A sweep's store has a J for all in its queue, with each of its numbers just outside its range.
#[test]
fn a_sweep_meets_a_j_for_all() {
    for seed in 1..=10 {
        let mut keeper = Keeper::default();
        let mut swept = Vec::new();
        for call in sweep(seed) {
            match &call {
                Call::Damage { changes, .. } => swept.push(changes.clone()),
                _ => {
                    run_plainly(&mut keeper, &call);
                    swept.clear();
                }
            }
        }
        let store = keeper.words();
        let queued = (0..store[AT_QUEUED] as usize).map(slot);
        let at = queued.clone().find(|at| store[at + 2] == J_FOR_ALL).expect("a J for all");
        assert_eq!(store[at + 1..at + 11], [0, J_FOR_ALL, 0, 0, 0, 0, 0, 0, 0, 0]);
        let outside = (1..11).map(|i| ((at + i) as u64, if i == 2 { J_FOR_ALL + 1 } else { 1 }));
        for change in outside {
            assert!(swept.contains(&vec![change]), "{change:?}");
        }
    }
}

#[test]
fn a_sweep_changes_every_number() {
    let mut swept = vec![Vec::new(); NUMBERS];
    for call in sweep(1) {
        if let Call::Damage { changes, .. } = call {
            swept[changes[0].0 as usize].push(changes[0].1);
        }
    }
    assert!(swept.iter().all(|values| !values.is_empty()));
    assert!(OLDER_LAYOUTS.iter().all(|older| swept[AT_LAYOUT].contains(older)));
}
