//! Runs calls on the second keeper and prints one line a call.
//!
//! | line | call |
//! |---|---|
//! | `open ANSWER`, then the store's sum after a 0 | opening |
//! | `feed ANSWER WAITING`, then the store's sum after a 0, 1 or 3 to 10 | feed |
//! | `quote ANSWER`, then 17 numbers after a 0 | quote |
//! | `sell ANSWER` or `buy ANSWER`, then 5 numbers after a 0 | lot |
//! | `write ANSWER LENGTH`, then the bytes after a 0 | writing |
//! | `state ANSWER`, then 4 numbers after a 0 | state |
//! | `board ANSWER`, then 5 numbers after a 0 | summary of the board |
//! | `salvage ANSWER`, then all numbers of the room after a 0, those not written as 0 | walk of a recording |
//! | `damage`, then the line of its call | a call on a store with numbers changed |
//! | `wipe` | wipe |
//! | `dump`, then `INDEX=VALUE` for each store number that isn't zero | dump |
//!
//! The sum is one number of 16 hex digits that stands for all 7,168 numbers of the store.

use crate::answer::{DONE, GAP, LET_GO, REPLAY_BROKE};
use crate::keeper::{Keeper, Writing};
use crate::layout;
use crate::lot::Lot;
use crate::salvage::salvage;
use crate::script::{bytes_text, Call};

/// Only 0, 1 and 3 to 10 change the store: 5 to 9 the loop record and, at a loop's end, the
/// instruments that it did not name.
fn changes_store(answer: u64) -> bool {
    [DONE, GAP].contains(&answer) || (LET_GO..=REPLAY_BROKE).contains(&answer)
}

/// `NAME 0` and the numbers, or `NAME ANSWER`.
fn numbers_line(name: &str, outcome: Result<&[u64], u64>) -> String {
    match outcome {
        Ok(numbers) => {
            let words: Vec<String> = numbers.iter().map(u64::to_string).collect();
            format!("{name} 0 {}", words.join(" "))
        }
        Err(answer) => format!("{name} {answer}"),
    }
}

/// `write 0 LENGTH BYTES`, or `write ANSWER 0`.
fn write_line(outcome: Result<Vec<u8>, u64>) -> String {
    match outcome {
        Ok(bytes) => format!("write 0 {} {}", bytes.len(), bytes_text(&bytes)),
        Err(answer) => format!("write {answer} 0"),
    }
}

/// Runs one call and gives its line.
pub fn run_call(keeper: &mut Keeper, call: &Call) -> String {
    let (line, changed) = run_plainly(keeper, call);
    if changed {
        format!("{line} {:016x}", layout::sum(&keeper.words()))
    } else {
        line
    }
}

/// Runs one call: its line without the store's sum, and whether the call changed the store.
pub fn run_plainly(keeper: &mut Keeper, call: &Call) -> (String, bool) {
    let line = match call {
        Call::Open { store_n, depth, ids } => {
            let answer = keeper.open(*store_n, *depth, ids);
            return (format!("open {answer}"), answer == DONE);
        }
        Call::Feed { store_n, message } => {
            let (answer, waiting) = keeper.feed(*store_n, message);
            return (format!("feed {answer} {waiting}"), changes_store(answer));
        }
        Call::Quote { store_n, id, now, limit, room } => {
            let outcome = keeper.quote(*store_n, *id, now, *limit, *room);
            numbers_line("quote", outcome.as_ref().map(|n| &n[..]).map_err(|a| *a))
        }
        Call::Lot { way, store_n, id, quantity, now, limit, room } => {
            let lot = Lot { way: *way, id: *id, quantity: *quantity, now, limit_s: *limit };
            let outcome = keeper.lot(*store_n, &lot, *room);
            numbers_line(way.name(), outcome.as_ref().map(|n| &n[..]).map_err(|a| *a))
        }
        Call::Write { store_n, id, sender, target, k, m, time, room } => {
            let writing = Writing { id: *id, sender, target, k: *k, m: *m, time };
            write_line(keeper.write(*store_n, &writing, *room))
        }
        Call::State { store_n, id, room } => {
            let outcome = keeper.state(*store_n, *id, *room);
            numbers_line("state", outcome.as_ref().map(|n| &n[..]).map_err(|a| *a))
        }
        Call::Board { store_n, room } => {
            let outcome = keeper.board(*store_n, *room);
            numbers_line("board", outcome.as_ref().map(|n| &n[..]).map_err(|a| *a))
        }
        Call::Salvage { from, room, recording } => {
            let outcome = salvage(recording, *from, *room);
            numbers_line("salvage", outcome.as_deref().map_err(|a| *a))
        }
        Call::Damage { changes, call } => format!("damage {}", run_call(&mut damaged(keeper, changes), call)),
        Call::Wipe { value } => {
            *keeper = Keeper { channel: None, fill: *value };
            String::from("wipe")
        }
        Call::Dump => dump_line(keeper),
    };
    (line, false)
}

/// The keeper of the same store with numbers changed.
fn damaged(keeper: &Keeper, changes: &[(u64, u64)]) -> Keeper {
    let mut words = keeper.words();
    for (index, value) in changes {
        words[*index as usize] = *value;
    }
    Keeper::of_words(&words)
}

fn dump_line(keeper: &Keeper) -> String {
    let words = keeper.words();
    let used = words.iter().enumerate().filter(|(_, word)| **word != 0);
    used.fold(String::from("dump"), |line, (i, word)| format!("{line} {i}={word}"))
}

/// Runs a script from a store of zeros and gives its lines.
pub fn run(calls: &[Call]) -> Vec<String> {
    let mut keeper = Keeper::default();
    calls.iter().map(|call| run_call(&mut keeper, call)).collect()
}
