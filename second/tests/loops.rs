//! Loops of snapshots worked by hand: the record, and what a whole loop does for the instruments
//! that it did not name.

use std::collections::BTreeSet;

use selkavorn_second::channel::Channel;
use selkavorn_second::gen::script;
use selkavorn_second::keeper::Keeper;
use selkavorn_second::layout::{read, words, AT_REPORTS};
use selkavorn_second::loops::Loop;
use selkavorn_second::message::{snapshot_of, Snapshot};
use selkavorn_second::run::run_plainly;
use selkavorn_second::script::Call;

const STORE: u64 = 7_168;
const PLACE: &str = "270=1|271=1|37=A|272=20250103|273=12:00:00|";
/// An instrument that no keeper here follows.
const OTHER: u64 = 55;

/// A message from what stands between 9 and 10, with `|` for SOH.
fn message(body: &str) -> Vec<u8> {
    let text = format!("8=FIX.4.4|9={}|{body}", body.len()).replace('|', "\u{1}");
    let sum: u64 = text.bytes().map(u64::from).sum();
    format!("{text}10={:03}\u{1}", sum % 256).into_bytes()
}

/// A W numbered `turn` of `reports`, with so many bids.
fn w((turn, reports): (u64, u64), id: u64, last: u64, bids: usize) -> Vec<u8> {
    let entry = |p| format!("269=0|{PLACE}290={p}|");
    let group: String = (1..=bids).map(entry).collect();
    message(&format!(
        "35=W|34={turn}|52=20250103-14:00:00|48={id}|22=8|369={last}|911={reports}|268={bids}|{group}"
    ))
}

/// An X with these entries.
fn x(number: u64, entries: &[String]) -> Vec<u8> {
    let (n, group) = (entries.len(), entries.concat());
    message(&format!("35=X|34={number}|52=20250103-13:00:00|268={n}|{group}"))
}

/// A bid: 279, instrument, position.
fn bid(action: u32, id: u64, position: usize) -> String {
    format!("279={action}|269=0|48={id}|22=8|290={position}|{PLACE}")
}

fn heartbeat(number: u64) -> Vec<u8> {
    message(&format!("35=0|34={number}|52=20250103-13:00:00|"))
}

/// A keeper that follows 7, 8 and 9, all Waiting, with B = 2 and H = 5. The queue holds a bid of 8
/// (message 4) and one of 9 (5).
fn keeper() -> Keeper {
    let mut keeper = Keeper::default();
    assert_eq!(keeper.open(STORE, 0, &[7, 8, 9]), 0);
    fed(&mut keeper, &heartbeat(3), (1, 3));
    fed(&mut keeper, &x(4, &[bid(0, 8, 1)]), (0, 3));
    fed(&mut keeper, &x(5, &[bid(0, 9, 1)]), (0, 3));
    keeper
}

#[track_caller]
fn fed(keeper: &mut Keeper, message: &[u8], answer: (u64, u64)) {
    assert_eq!(keeper.feed(STORE, message), answer);
    let words = keeper.words();
    assert_eq!(read(&words).map(|channel| self::words(&channel)), Some(words), "the store is sound");
}

/// The loop record in the store: 911, how many have come, the lowest 369, who was named.
fn record(keeper: &Keeper) -> [u64; 4] {
    keeper.words()[AT_REPORTS..AT_REPORTS + 4].try_into().unwrap()
}

/// Waiting or not, reason, bids held.
fn state(keeper: &Keeper, id: u64) -> [u64; 3] {
    keeper.state(STORE, id, 4).unwrap()[..3].try_into().unwrap()
}

const NO_LOOP: [u64; 4] = [0; 4];
const FRESH: [u64; 3] = [1, 0, 0];

#[test]
fn the_unnamed_go_live_with_their_replay() {
    let mut keeper = keeper();
    fed(&mut keeper, &w((1, 2), 7, 5, 1), (4, 2));
    assert_eq!(record(&keeper), [2, 1, 5, 0b001]);
    fed(&mut keeper, &w((2, 2), OTHER, 3, 0), (5, 0));
    assert_eq!(record(&keeper), NO_LOOP);
    assert_eq!([7, 8, 9].map(|id| state(&keeper, id)), [[0, 0, 1]; 3]);
    let channel = keeper.channel.as_ref().unwrap();
    assert_eq!((channel.b, channel.h, channel.queue.len()), (5, 5, 0));
}

#[test]
fn the_replay_is_what_lies_above_the_lowest() {
    for (lowest, held) in [(2, [1, 1]), (3, [1, 1]), (4, [0, 1]), (5, [0, 0])] {
        let mut keeper = keeper();
        fed(&mut keeper, &w((1, 1), OTHER, lowest, 0), (5, 0));
        assert_eq!([8, 9].map(|id| state(&keeper, id)), held.map(|held| [0, 0, held]));
    }
}

#[test]
fn a_loop_of_1_is_whole_at_once() {
    let mut keeper = keeper();
    fed(&mut keeper, &w((1, 1), 8, 4, 1), (4, 0));
    assert_eq!(record(&keeper), NO_LOOP);
    assert_eq!([7, 8, 9].map(|id| state(&keeper, id)), [[0, 0, 0], [0, 0, 1], [0, 0, 1]]);
}

#[test]
fn sixteen_and_more() {
    for reports in [16, 17, 40] {
        let mut keeper = keeper();
        for turn in 1..reports {
            fed(&mut keeper, &w((turn, reports), OTHER + turn, 5, 0), (5, 3));
            assert_eq!(record(&keeper), [reports, turn, 5, 0]);
        }
        fed(&mut keeper, &w((reports, reports), OTHER, 5, 0), (5, 0));
    }
}

/// The answer stays the one that the closing W earned; its own 369 is in the lowest.
#[test]
fn closed_by_every_answer() {
    let closed = |closing: &[u8], answer| {
        let mut keeper = keeper();
        fed(&mut keeper, &x(6, &[bid(2, 8, 9)]), (0, 3));
        fed(&mut keeper, &w((1, 3), OTHER, 5, 0), (5, 3));
        fed(&mut keeper, &w((2, 3), 7, 6, 0), (4, 2));
        fed(&mut keeper, closing, answer);
        assert_eq!(record(&keeper), NO_LOOP);
        [8, 9].map(|id| state(&keeper, id))
    };
    assert_eq!(closed(&w((3, 3), 8, 6, 2), (4, 0)), [[0, 0, 2], [0, 0, 0]]);
    assert_eq!(closed(&w((3, 3), OTHER, 6, 0), (5, 1)), [[1, 1, 0], [0, 0, 0]]);
    assert_eq!(closed(&w((3, 3), 7, 4, 0), (6, 1)), [[1, 1, 0], [0, 0, 1]]);
    assert_eq!(closed(&w((3, 3), 8, 1, 0), (7, 2)), [FRESH, FRESH]);
    assert_eq!(closed(&w((3, 3), 8, 7, 0), (8, 1)), [FRESH, [0, 0, 0]]);
    assert_eq!(closed(&w((3, 3), 8, 6, 21), (9, 1)), [FRESH, [0, 0, 0]]);
    assert_eq!(closed(&w((3, 3), 8, 5, 3), (10, 1)), [[1, 1, 0], [0, 0, 0]]);
}

/// The lowest is over all W of the loop, followed or not, refused or not, wherever they stand.
#[test]
fn the_lowest_lies_in_b_to_h() {
    for (lowest, live) in [(0, false), (1, false), (2, true), (4, true), (5, true), (6, false)] {
        for low_turn in 1..=3 {
            for id in [7, OTHER] {
                let mut keeper = keeper();
                for turn in 1..=3 {
                    let (id, last) = if turn == low_turn { (id, lowest) } else { (OTHER, 6) };
                    keeper.feed(STORE, &w((turn, 3), id, last, 0));
                }
                assert_eq!(state(&keeper, 9)[0] == 0, live, "{lowest} at {low_turn}");
                assert_eq!(record(&keeper), NO_LOOP);
            }
        }
    }
}

/// Whatever its W was answered, an instrument that was named is left.
#[test]
fn the_named_are_left() {
    let mut keeper = keeper();
    fed(&mut keeper, &x(6, &[bid(2, 9, 7)]), (0, 3));
    fed(&mut keeper, &w((1, 4), 7, 7, 0), (8, 3));
    fed(&mut keeper, &w((2, 4), 8, 5, 21), (9, 3));
    fed(&mut keeper, &w((3, 4), 9, 5, 0), (10, 3));
    assert_eq!(record(&keeper), [4, 3, 5, 0b111]);
    fed(&mut keeper, &w((4, 4), OTHER, 6, 0), (5, 3));
    assert_eq!([7, 8, 9].map(|id| state(&keeper, id)), [FRESH, FRESH, [1, 1, 0]]);
    assert_eq!(record(&keeper), NO_LOOP);
}

#[test]
fn taken_and_broken_again_is_named() {
    let mut keeper = keeper();
    fed(&mut keeper, &w((1, 2), 7, 5, 0), (4, 2));
    fed(&mut keeper, &x(6, &[bid(2, 7, 1)]), (0, 3));
    fed(&mut keeper, &w((2, 2), OTHER, 3, 0), (5, 1));
    assert_eq!([7, 8].map(|id| state(&keeper, id)), [[1, 1, 0], [0, 0, 1]]);
}

/// The same 34 again, a skipped one, another 911, 34 above 911: none goes on.
#[test]
fn any_other_drops_the_record() {
    for other in [(2, 4), (4, 4), (5, 4), (9, 4), (3, 5), (3, 3), (3, 2), (4_294_967_295, 4)] {
        let mut keeper = keeper();
        fed(&mut keeper, &w((1, 4), OTHER, 5, 0), (5, 3));
        fed(&mut keeper, &w((2, 4), OTHER, 5, 0), (5, 3));
        fed(&mut keeper, &w(other, OTHER, 5, 0), (5, 3));
        assert_eq!(record(&keeper), NO_LOOP);
        fed(&mut keeper, &w((3, 4), OTHER, 5, 0), (5, 3));
        fed(&mut keeper, &w((4, 4), OTHER, 5, 0), (5, 3));
        assert_eq!(record(&keeper), NO_LOOP);
    }
}

/// 34 = 1 begins a new loop, with its own 911, lowest and names.
#[test]
fn begun_anew() {
    let mut keeper = keeper();
    fed(&mut keeper, &w((1, 3), 8, 1, 0), (7, 3));
    fed(&mut keeper, &w((2, 3), 9, 6, 0), (8, 3));
    fed(&mut keeper, &w((1, 2), 7, 5, 0), (4, 2));
    assert_eq!(record(&keeper), [2, 1, 5, 0b001]);
    fed(&mut keeper, &w((1, 2), OTHER, 5, 0), (5, 2));
    assert_eq!(record(&keeper), [2, 1, 5, 0]);
    fed(&mut keeper, &w((2, 2), OTHER, 4, 0), (5, 0));
}

/// A loop of 1 is whole at once, with a lowest and names of its own; the loop in whose middle it
/// came is dropped.
#[test]
fn a_loop_of_1_in_the_middle_of_another() {
    let mut keeper = keeper();
    fed(&mut keeper, &w((1, 2), OTHER, 5, 0), (5, 3));
    fed(&mut keeper, &w((1, 1), OTHER, 6, 0), (5, 3));
    assert_eq!(record(&keeper), NO_LOOP);
    fed(&mut keeper, &w((2, 2), OTHER, 5, 0), (5, 3));
    fed(&mut keeper, &w((1, 2), 8, 1, 0), (7, 3));
    fed(&mut keeper, &w((1, 1), OTHER, 4, 0), (5, 0));
    assert_eq!(record(&keeper), NO_LOOP);
}

/// 1 and 2 of one loop and 3 of the next are whole together, if their 911 is one.
#[test]
fn of_two_loops() {
    let mut keeper = keeper();
    fed(&mut keeper, &w((1, 3), OTHER, 4, 0), (5, 3));
    fed(&mut keeper, &w((2, 3), OTHER, 4, 0), (5, 3));
    fed(&mut keeper, &heartbeat(6), (0, 3));
    fed(&mut keeper, &w((3, 3), OTHER, 6, 0), (5, 0));
    assert_eq!([8, 9].map(|id| state(&keeper, id)), [[0, 0, 0], [0, 0, 1]]);
}

#[test]
fn the_closing_one_once_more_is_any_other() {
    let mut keeper = keeper();
    fed(&mut keeper, &w((1, 2), OTHER, 6, 0), (5, 3));
    fed(&mut keeper, &w((2, 2), OTHER, 6, 0), (5, 3));
    fed(&mut keeper, &heartbeat(6), (0, 3));
    fed(&mut keeper, &w((2, 2), OTHER, 6, 0), (5, 3));
    assert_eq!(record(&keeper), NO_LOOP);
    fed(&mut keeper, &w((1, 2), OTHER, 5, 0), (5, 3));
    fed(&mut keeper, &w((2, 2), OTHER, 5, 0), (5, 0));
}

/// Other types, old messages and W refused by 11 to 14 leave the record as it is.
#[test]
fn what_lies_between() {
    let mut keeper = keeper();
    fed(&mut keeper, &w((1, 2), 7, 5, 0), (4, 2));
    let before = record(&keeper);
    let mut bad_sum = w((2, 2), OTHER, 5, 0);
    let last = bad_sum.len() - 2;
    bad_sum[last] ^= 1;
    let refused = [
        (w((2, 2), OTHER, 5, 0)[1..].to_vec(), 11),
        (bad_sum, 12),
        (message("35=w|34=2|52=20250103-14:00:00|48=55|22=8|369=5|911=2|268=0|"), 13),
        (w((2, 2), 0, 5, 0), 14),
        (w((1, 0), OTHER, 5, 0), 14),
        (w((2, 2), OTHER, 4_294_967_296, 0), 14),
        (heartbeat(5), 2),
    ];
    for (message, answer) in refused {
        fed(&mut keeper, &message, (answer, 2));
        assert_eq!(record(&keeper), before);
    }
    for (number, body) in [(6, "35=0"), (7, "35=f"), (8, "35=y"), (9, "35=B")] {
        let other = message(&format!("{body}|34={number}|52=20250103-13:00:00|"));
        fed(&mut keeper, &other, (0, 2));
        assert_eq!(record(&keeper), before);
    }
    fed(&mut keeper, &x(10, &[bid(0, 8, 1)]), (0, 2));
    fed(&mut keeper, &w((2, 2), OTHER, 5, 0), (5, 0));
    assert_eq!([8, 9].map(|id| state(&keeper, id)), [[0, 0, 1], [0, 0, 0]]);
}

/// A gap leaves the record; a lowest from before it is then below B.
#[test]
fn over_a_gap() {
    for (last, answer) in [(6, (5, 3)), (7, (5, 0)), (8, (5, 0))] {
        let mut keeper = keeper();
        fed(&mut keeper, &w((1, 2), OTHER, last, 0), (5, 3));
        fed(&mut keeper, &heartbeat(8), (1, 3));
        assert_eq!(record(&keeper), [2, 1, last, 0]);
        fed(&mut keeper, &w((2, 2), OTHER, 9, 0), answer);
    }
}

#[test]
fn opening_clears_the_record() {
    let mut keeper = keeper();
    fed(&mut keeper, &w((1, 2), OTHER, 5, 0), (5, 3));
    assert_eq!(keeper.open(STORE, 0, &[7, 8, 7]), 18);
    assert_eq!(record(&keeper), [2, 1, 5, 0]);
    assert_eq!(keeper.open(STORE, 0, &[7, 8, 9]), 0);
    assert_eq!(record(&keeper), NO_LOOP);
    fed(&mut keeper, &w((2, 2), OTHER, 0, 0), (5, 3));
}

/// Before anything is heard B and H are 0: 369 = 0 is in reach.
#[test]
fn before_anything_is_heard() {
    let mut keeper = Keeper::default();
    assert_eq!(keeper.open(STORE, 1, &[7, 8]), 0);
    fed(&mut keeper, &w((1, 1), OTHER, 1, 0), (5, 2));
    fed(&mut keeper, &w((1, 1), 7, 0, 0), (4, 0));
    assert_eq!(keeper.quote(STORE, 8, b"20250103-13:00:00", 30, 17), Err(22));
}

/// Each replay may break by itself; the others are taken, and B and the queue stay while one waits.
#[test]
fn a_replay_that_breaks() {
    let mut keeper = keeper();
    fed(&mut keeper, &x(6, &[bid(1, 8, 2)]), (0, 3));
    let many: Vec<String> = (0..21).map(|_| bid(0, 7, 1)).collect();
    fed(&mut keeper, &x(7, &many), (0, 3));
    fed(&mut keeper, &w((1, 1), OTHER, 2, 0), (5, 2));
    assert_eq!([7, 8, 9].map(|id| state(&keeper, id)), [[1, 2, 0], [1, 1, 0], [0, 0, 1]]);
    let channel = keeper.channel.as_ref().unwrap();
    assert_eq!((channel.b, channel.h, channel.queue.len()), (2, 7, 24));
    fed(&mut keeper, &w((1, 1), OTHER, 6, 0), (5, 1));
    assert_eq!([7, 8].map(|id| state(&keeper, id)), [[1, 2, 0], [0, 0, 0]]);
    fed(&mut keeper, &w((1, 1), OTHER, 7, 0), (5, 0));
    assert_eq!(state(&keeper, 7), [0, 0, 0]);
}

/// One that is Live keeps its book, and nothing is done where none waits.
#[test]
fn the_live_are_left() {
    let mut keeper = keeper();
    fed(&mut keeper, &w((1, 1), 8, 5, 3), (4, 0));
    let store = keeper.words();
    fed(&mut keeper, &w((1, 1), OTHER, 5, 0), (5, 0));
    fed(&mut keeper, &w((1, 1), 7, 5, 0), (6, 0));
    assert_eq!(keeper.words(), store);
}

/// A W is not counted, and its time is not heard, whatever it ends.
#[test]
fn nothing_is_heard() {
    let mut keeper = keeper();
    let board = keeper.board(STORE, 5).unwrap();
    fed(&mut keeper, &w((1, 1), OTHER, 5, 0), (5, 0));
    assert_eq!(keeper.board(STORE, 5).unwrap()[..3], board[..3]);
}

/// 911 is 2 to 4,294,967,295, come 1 to 911 - 1, the lowest 0 to 4,294,967,295, named below 2^3; or
/// all four are 0.
#[test]
fn the_record_in_the_store() {
    let most = 4_294_967_295;
    let sound = |record: [u64; 4]| {
        let mut words = keeper().words();
        words[AT_REPORTS..AT_REPORTS + 4].copy_from_slice(&record);
        read(&words).is_some()
    };
    for record in [NO_LOOP, [2, 1, 0, 0], [2, 1, most, 7], [most, 1, 0, 0], [most, most - 1, most, 7]] {
        assert!(sound(record), "{record:?}");
    }
    let unsound = [
        [1, 0, 0, 0],
        [0, 1, 0, 0],
        [0, 0, 1, 0],
        [0, 0, 0, 1],
        [1, 1, 0, 0],
        [2, 0, 0, 0],
        [2, 2, 0, 0],
        [2, 1, most + 1, 0],
        [2, 1, 0, 8],
        [most, most, 0, 0],
        [most + 1, 1, 0, 0],
    ];
    for record in unsound {
        assert!(!sound(record), "{record:?}");
    }
}

/// The longest loop: its last two W, with the record set as if all before had come.
#[test]
fn the_longest_loop() {
    let most = 4_294_967_295;
    let mut words = keeper().words();
    words[AT_REPORTS..AT_REPORTS + 4].copy_from_slice(&[most, most - 2, 4, 0]);
    let mut keeper = Keeper::of_words(&words);
    fed(&mut keeper, &w((most - 1, most), OTHER, 5, 0), (5, 3));
    assert_eq!(record(&keeper), [most, most - 1, 4, 0]);
    fed(&mut keeper, &w((most, most), OTHER, 5, 0), (5, 0));
    assert_eq!([8, 9].map(|id| state(&keeper, id)), [[0, 0, 0], [0, 0, 1]]);
}

/// The W that are in a row at the end of all that came: as many as 34 of the last says, numbered 1,
/// 2, .. with one 911.
fn last_row(all: &[Snapshot]) -> Option<&[Snapshot]> {
    let last = all.last()?;
    let row = &all[all.len().checked_sub(usize::try_from(last.number).ok()?)?..];
    let in_turn = (1..).zip(row).all(|(number, w)| w.number == number && w.reports == last.reports);
    in_turn.then_some(row)
}

fn lowest(row: &[Snapshot]) -> u64 {
    row.iter().map(|w| w.last).min().expect("a row")
}

/// Walks scripts, with what stood before each call, and the W since the last opening.
fn walk_scripts(mut seen: impl FnMut(&Channel, &Call, &Channel, &[Snapshot])) {
    for seed in 1..=20 {
        let (mut keeper, mut all) = (Keeper::default(), Vec::new());
        for call in script(seed, 1_000) {
            let before = keeper.channel.clone();
            let (line, _) = run_plainly(&mut keeper, &call);
            if line == "open 0" || keeper.channel.is_none() {
                all.clear();
            }
            let (Some(before), Some(after)) = (before, &keeper.channel) else { continue };
            if let Call::Feed { message, .. } = &call {
                all.extend(snapshot_of(message, before.depth).filter(|_| !line.starts_with("feed 17")));
            }
            seen(&before, &call, after, &all);
        }
    }
}

/// The record is that of the last W in a row, unless they are a whole loop.
#[test]
fn the_record_is_the_last_row() {
    let mut ran = 0;
    walk_scripts(|_, _, after, all| {
        let running = last_row(all).filter(|row| (row.len() as u64) < row[0].reports);
        let record = running.map(|row| Loop {
            reports: row[0].reports,
            come: row.len() as u64,
            lowest: lowest(row),
            named: row.iter().map(|w| w.id).collect(),
        });
        assert_eq!(after.running, record);
        ran += usize::from(record.is_some());
    });
    assert!(ran > 1_000, "only {ran}");
}

/// The end of a loop is what an empty W for each that it did not name does, one after another.
#[test]
fn the_end_is_so_many_empty_snapshots() {
    let mut ended = 0;
    walk_scripts(|before, call, after, all| {
        let Call::Feed { message, .. } = call else { return };
        let Some(snapshot) = snapshot_of(message, before.depth) else { return };
        let Some(row) = last_row(all).filter(|row| row.len() as u64 == snapshot.reports) else { return };
        if snapshot.reports == 1 || before.running.is_none() {
            return;
        }
        let mut other = Channel { running: None, ..before.clone() };
        other.feed(message);
        let named: BTreeSet<u64> = row.iter().map(|w| w.id).collect();
        for id in before.instruments.iter().map(|it| it.id).filter(|id| !named.contains(id)) {
            other.feed(&w((2, 2), id, lowest(row), 0));
        }
        assert_eq!(words(&other), words(after));
        ended += 1;
    });
    assert!(ended > 100, "only {ended}");
}
