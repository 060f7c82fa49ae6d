//! Shortens the stream and the loops of snapshots of a script by a message each, messages inside it,
//! with 9, 10 and 268 kept right where they were right, changes of a store, quantities of lots, and
//! recordings with the room that is lent for their walks.

use crate::gen::draft::{Draft, DraftField};
use crate::salvage::{pieces, Piece, PIECE_NUMBERS};
use crate::script::Call;
use crate::shrink::{shrink_list, Shows};

/// The fields of a fed message, if its frame is sound.
fn draft_of(call: &Call) -> Option<Draft> {
    let Call::Feed { message, .. } = call else { return None };
    let draft = Draft::unseal(message);
    (!draft.fields.is_empty() && draft.seal() == *message).then_some(draft)
}

fn is_snapshot(fields: &[DraftField]) -> bool {
    fields.first().is_some_and(|field| field.1 == b"W")
}

/// The number that a tag tells.
fn told(fields: &[DraftField], tag: &str) -> Option<u64> {
    let found = fields.iter().find(|field| field.0 == tag)?;
    std::str::from_utf8(&found.1).ok()?.parse().ok()
}

/// Sets the first field of a tag to a number.
fn set(fields: &mut [DraftField], tag: &str, number: u64) {
    if let Some(found) = fields.iter_mut().find(|field| field.0 == tag) {
        found.1 = number.to_string().into_bytes();
    }
}

/// The script without one counted message, the numbers (34, 369) after it lowered by one.
pub fn without_number(calls: &[Call], place: usize) -> Option<Vec<Call>> {
    let draft = draft_of(&calls[place]).filter(|draft| !is_snapshot(&draft.fields))?;
    let number = told(&draft.fields, "34")?;
    let mut shorter = calls.to_vec();
    shorter.remove(place);
    shorter[place..].iter_mut().for_each(|call| lower(call, number));
    Some(shorter)
}

/// Lowers a message's number if it is above `number`, or a snapshot's 369 if it reaches it.
fn lower(call: &mut Call, number: u64) {
    let Some(mut draft) = draft_of(call) else { return };
    let snapshot = is_snapshot(&draft.fields);
    let (tag, least) = if snapshot { ("369", number) } else { ("34", number + 1) };
    if let Some(told) = told(&draft.fields, tag).filter(|told| *told >= least) {
        set(&mut draft.fields, tag, told - 1);
    }
    if let Call::Feed { message, .. } = call {
        *message = draft.seal();
    }
}

/// The script without one W; in the others with its 911 that is lowered by one, and so is a 34
/// above its own.
pub fn without_turn(calls: &[Call], place: usize) -> Option<Vec<Call>> {
    let draft = draft_of(&calls[place]).filter(|draft| is_snapshot(&draft.fields))?;
    let (number, reports) = (told(&draft.fields, "34")?, told(&draft.fields, "911")?);
    let mut shorter = calls.to_vec();
    shorter.remove(place);
    shorter.iter_mut().for_each(|call| lower_turn(call, number, reports));
    Some(shorter)
}

/// Lowers 911 of a W of such a loop, and its 34 if it is above `number`.
fn lower_turn(call: &mut Call, number: u64, reports: u64) {
    let of_loop = |draft: &Draft| {
        is_snapshot(&draft.fields) && reports > 1 && told(&draft.fields, "911") == Some(reports)
    };
    let Some(mut draft) = draft_of(call).filter(of_loop) else { return };
    set(&mut draft.fields, "911", reports - 1);
    if let Some(told) = told(&draft.fields, "34").filter(|told| *told > number) {
        set(&mut draft.fields, "34", told - 1);
    }
    if let Call::Feed { message, .. } = call {
        *message = draft.seal();
    }
}

/// Shortens the message of one call: entries first, then single fields.
pub fn shorten_message(calls: &mut Vec<Call>, place: usize, shows: Shows<Call>) {
    let Some(whole) = draft_of(&calls[place]) else { return };
    let counted = told(&whole.fields, "268") == Some(count_entries(&whole.fields));
    let with = |pieces: &[Vec<DraftField>]| {
        let mut shorter = calls.clone();
        if let Call::Feed { message, .. } = &mut shorter[place] {
            *message = sealed(pieces, counted);
        }
        shorter
    };
    let entries = shrink_list(&entry_pieces(&whole.fields), &mut |pieces| shows(&with(pieces)));
    let fields: Vec<_> = entries.into_iter().flatten().map(|field| vec![field]).collect();
    let fields = shrink_list(&fields, &mut |pieces| shows(&with(pieces)));
    let shorter = with(&fields);
    if shows(&shorter) {
        *calls = shorter;
    }
}

/// Leaves out changes of a store that aren't needed.
pub fn shorten_changes(calls: &mut Vec<Call>, place: usize, shows: Shows<Call>) {
    let Call::Damage { changes, call } = &calls[place] else { return };
    let with = |changes: &[(u64, u64)]| {
        let mut shorter = calls.clone();
        shorter[place] = Call::Damage { changes: changes.to_vec(), call: call.clone() };
        shorter
    };
    let fewer = shrink_list(changes, &mut |changes| !changes.is_empty() && shows(&with(changes)));
    *calls = with(&fewer);
}

/// Lowers the quantity of a lot by ever smaller steps.
pub fn lower_quantity(calls: &mut Vec<Call>, place: usize, shows: Shows<Call>) {
    for step in (0..u64::BITS).rev().map(|bit| 1 << bit) {
        let mut shorter = calls.clone();
        let Call::Lot { quantity, .. } = &mut shorter[place] else { return };
        let Some(less) = quantity.checked_sub(step) else { continue };
        *quantity = less;
        if shows(&shorter) {
            *calls = shorter;
        }
    }
}

/// Shortens the walk of one call: its recording, then its room.
pub fn shorten_walk(calls: &mut Vec<Call>, place: usize, shows: Shows<Call>) {
    shorten_recording(calls, place, shows);
    while let Call::Salvage { from, room, recording } = calls[place].clone() {
        let with = |room: u64| with_walk(calls, place, from, room, &recording);
        let less = [room / 2, room.saturating_sub(1)].into_iter().filter(|less| *less < room);
        match less.map(with).find(|shorter| shows(shorter)) {
            Some(shorter) => *calls = shorter,
            None => break,
        }
    }
}

/// The script with another walk at a place.
fn with_walk(calls: &[Call], place: usize, from: u64, room: u64, recording: &[u8]) -> Vec<Call> {
    let mut others = calls.to_vec();
    others[place] = Call::Salvage { from, room, recording: recording.to_vec() };
    others
}

/// Leaves out the bytes before a walk's start, or before the piece in which it starts, then whole
/// pieces with their room and without it, then single bytes.
fn shorten_recording(calls: &mut Vec<Call>, place: usize, shows: Shows<Call>) {
    let Call::Salvage { mut from, room, mut recording } = calls[place].clone() else { return };
    let start = (from as usize).min(recording.len());
    let of_piece = pieces(&recording, 0).iter().map(|piece| piece.start).rfind(|at| *at < start);
    for before in [Some(start), of_piece].into_iter().flatten() {
        let less = from - before as u64;
        if shows(&with_walk(calls, place, less, room, &recording[before..])) {
            recording.drain(..before);
            from = less;
            break;
        }
    }
    let of = |piece: &Piece| recording[piece.start..piece.end()].to_vec();
    let whole: Vec<Vec<u8>> = pieces(&recording, 0).iter().map(of).collect();
    let room_of = |kept: usize| room.saturating_sub(PIECE_NUMBERS * (whole.len() - kept) as u64);
    let with = |bytes: &[u8], kept: usize| with_walk(calls, place, from, room_of(kept), bytes);
    let kept = shrink_list(&whole, &mut |pieces| shows(&with(&pieces.concat(), pieces.len())));
    let n = kept.len();
    let kept = shrink_list(&kept, &mut |pieces| shows(&with(&pieces.concat(), n))).concat();
    let kept = shrink_list(&kept, &mut |bytes| shows(&with(bytes, n)));
    *calls = with(&kept, n);
}

/// The tag that begins an entry in this message.
fn opener(fields: &[DraftField]) -> &'static str {
    if is_snapshot(fields) {
        "269"
    } else {
        "279"
    }
}

fn count_entries(fields: &[DraftField]) -> u64 {
    fields.iter().filter(|field| field.0 == opener(fields)).count() as u64
}

/// Each field before the first entry by itself, then each entry whole.
fn entry_pieces(fields: &[DraftField]) -> Vec<Vec<DraftField>> {
    let mut pieces: Vec<Vec<DraftField>> = Vec::new();
    let mut in_group = false;
    for field in fields {
        let opens = field.0 == opener(fields);
        in_group = in_group || opens;
        match pieces.last_mut() {
            Some(entry) if in_group && !opens => entry.push(field.clone()),
            _ => pieces.push(vec![field.clone()]),
        }
    }
    pieces
}

/// The message of these pieces; 268 counts the entries that are left, if it did before.
fn sealed(pieces: &[Vec<DraftField>], counted: bool) -> Vec<u8> {
    let mut fields = pieces.concat();
    let left = count_entries(&fields);
    if counted {
        set(&mut fields, "268", left);
    }
    Draft { fields }.seal()
}
