//! Recordings: the calls of a script as the bytes that the program `replay` reads, and the lines
//! that it must write for them.
//!
//! A recording is a chain of records: a byte that says the kind, two bytes of length, and that
//! many bytes. Numbers stand low byte first.
//!
//! | kind | bytes | call |
//! |---|---|---|
//! | `O` | depth byte, 8 bytes for each SecurityID | opening |
//! | `F` | the message | feed |
//! | `Q` | SecurityID 8 bytes, limit 8 bytes, now | quote, in room of 17 numbers |
//! | `L`, `P` | SecurityID 8 bytes, limit 8 bytes, quantity 8 bytes, now | lot sold, lot bought, in room of 5 numbers |
//! | `S` | SecurityID 8 bytes | state, in room of 4 numbers |
//! | `B` | none | summary of the board, in room of 5 numbers |
//! | `W` | SecurityID 8 bytes, k, m, sender's and target's length (a byte each), sender, target, time | writing, in room of 4,307 bytes |
//! | `R` | byte to start at 8 bytes, room (a byte), the recording | walk of a recording, in room of so many numbers |
//! | `D` | index 2 bytes, value 8 bytes | none; the store's number at the index is set |
//!
//! A `damage` line becomes a `D` record for each of its changes, its call, and a `D` record for
//! each number that then differs from what it was before.

use crate::keeper::{Keeper, BOARD_NUMBERS, LONGEST_WRITING, STATE_NUMBERS, STORE_NUMBERS};
use crate::lot::{Way, LOT_NUMBERS};
use crate::quote::QUOTE_NUMBERS;
use crate::run::run_plainly;
use crate::script::Call;

/// The records of a script; the error is the first call that no record can hold.
pub fn pack(calls: &[Call]) -> Result<Vec<u8>, String> {
    let mut keeper = Keeper::default();
    let mut recording = Vec::new();
    for call in calls {
        pack_call(&mut keeper, call, &mut recording)
            .ok_or_else(|| format!("no record holds `{}`", call.line()))?;
    }
    Ok(recording)
}

/// The lines of a script, one a call, without the store's sum.
pub fn lines(calls: &[Call]) -> String {
    let mut keeper = Keeper::default();
    let line = |call: &Call| match call {
        Call::Damage { changes, call } => damaged_call(&keeper, changes, call).0 + "\n",
        call => run_plainly(&mut keeper, call).0 + "\n",
    };
    calls.iter().map(line).collect()
}

fn pack_call(keeper: &mut Keeper, call: &Call, recording: &mut Vec<u8>) -> Option<()> {
    let Call::Damage { changes, call } = call else {
        record(call, recording)?;
        run_plainly(keeper, call);
        return Some(());
    };
    let before = keeper.words();
    let after = damaged_call(keeper, changes, call).1;
    for (index, value) in changes {
        set_number(*index, *value, recording)?;
    }
    record(call, recording)?;
    for (index, value) in (0..).zip(&before).filter(|(index, value)| after[*index as usize] != **value) {
        set_number(index, *value, recording)?;
    }
    Some(())
}

/// The line of a call on the store with numbers changed, and the store's numbers after it.
fn damaged_call(keeper: &Keeper, changes: &[(u64, u64)], call: &Call) -> (String, Vec<u64>) {
    let mut words = keeper.words();
    for (index, value) in changes {
        words[*index as usize] = *value;
    }
    let mut damaged = Keeper::of_words(&words);
    let (line, changed) = run_plainly(&mut damaged, call);
    (line, if changed { damaged.words() } else { words })
}

/// One record: a kind, a length, and the bytes.
fn put(kind: u8, bytes: &[u8], recording: &mut Vec<u8>) -> Option<()> {
    recording.push(kind);
    recording.extend(u16::try_from(bytes.len()).ok()?.to_le_bytes());
    recording.extend(bytes);
    Some(())
}

fn set_number(index: u64, value: u64, recording: &mut Vec<u8>) -> Option<()> {
    let index = u16::try_from(index).ok()?.to_le_bytes();
    put(b'D', &[&index[..], &value.to_le_bytes()].concat(), recording)
}

/// The record of a call that lends a store of 7,168 numbers, where it lends one, and the room that
/// the program lends.
fn record(call: &Call, recording: &mut Vec<u8>) -> Option<()> {
    let byte = |number: u64| u8::try_from(number).ok();
    match call {
        Call::Open { store_n: STORE_NUMBERS, depth, ids } => {
            let ids: Vec<u8> = ids.iter().flat_map(|id| id.to_le_bytes()).collect();
            put(b'O', &[&[byte(*depth)?], &ids[..]].concat(), recording)
        }
        Call::Feed { store_n: STORE_NUMBERS, message } => put(b'F', message, recording),
        Call::Quote { store_n: STORE_NUMBERS, id, now, limit, room } if *room == QUOTE_NUMBERS as u64 => {
            put(b'Q', &[&id.to_le_bytes(), &limit.to_le_bytes(), &now[..]].concat(), recording)
        }
        Call::Lot { way, store_n: STORE_NUMBERS, id, quantity, now, limit, room }
            if *room == LOT_NUMBERS as u64 =>
        {
            let kind = match way {
                Way::Sell => b'L',
                Way::Buy => b'P',
            };
            let numbers = [*id, *limit, *quantity].map(u64::to_le_bytes).concat();
            put(kind, &[&numbers, &now[..]].concat(), recording)
        }
        Call::State { store_n: STORE_NUMBERS, id, room } if *room == STATE_NUMBERS as u64 => {
            put(b'S', &id.to_le_bytes(), recording)
        }
        Call::Board { store_n: STORE_NUMBERS, room } if *room == BOARD_NUMBERS as u64 => {
            put(b'B', &[], recording)
        }
        Call::Write { store_n: STORE_NUMBERS, id, sender, target, k, m, time, room: LONGEST_WRITING } => {
            let lengths = [sender.len(), target.len()].map(|length| byte(length as u64));
            let small = [byte(*k)?, byte(*m)?, lengths[0]?, lengths[1]?];
            put(b'W', &[&id.to_le_bytes(), &small[..], sender, target, time].concat(), recording)
        }
        Call::Salvage { from, room, recording: walked } => {
            put(b'R', &[&from.to_le_bytes()[..], &[byte(*room)?], &walked[..]].concat(), recording)
        }
        _ => None,
    }
}
