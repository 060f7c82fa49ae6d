//! The walk of a recording that holds messages end to end, with holes and bad bytes: each whole
//! message and each run of bytes that was passed over, in order (document 02, K12).

use crate::answer::{ARGUMENT, CHECKSUM, FIELDS, TYPE};
use crate::book::Depth;
use crate::flip::{either, on, Flip};
use crate::frame::{self, SOH};
use crate::message;

/// The numbers before the results: the byte to go on at, and how many results follow.
pub const HEAD_NUMBERS: u64 = 2;
/// The numbers of a result: 1 for a message or 0 for a passed run, its start, its length.
pub const PIECE_NUMBERS: u64 = 3;
/// The least room: that of one result.
pub const LEAST_ROOM: u64 = HEAD_NUMBERS + PIECE_NUMBERS;

/// The first field of every message.
const BEGIN: &[u8] = b"8=FIX.4.4\x01";
/// The bytes of the last field.
const TRAILER_BYTES: usize = 7;

/// One result: a message, or a run of bytes that was passed over.
#[derive(Clone, Copy, PartialEq, Eq, Debug)]
pub struct Piece {
    pub message: bool,
    /// Its first byte, counted from the recording's first.
    pub start: usize,
    pub length: usize,
}

impl Piece {
    pub fn end(&self) -> usize {
        self.start + self.length
    }
}

/// The length of the stretch from the first byte on that 11 and 12 would not refuse. Every such
/// stretch begins with 8=FIX.4.4 and ends with a field of tag 10, so no other is tried; tag 9 is
/// left to the frame.
pub fn stretch(rest: &[u8]) -> Option<usize> {
    if !rest.starts_with(BEGIN) {
        return None;
    }
    let length = trailer_ends(rest).find(|end| is_whole(&rest[..*end]))?;
    (!is_lost(rest, length)).then_some(length)
}

/// The places at which a field of tag 10 ends.
fn trailer_ends(rest: &[u8]) -> impl Iterator<Item = usize> + '_ {
    let mut end = 0;
    rest.split_inclusive(|byte| *byte == SOH).filter_map(move |field| {
        end += field.len();
        field.starts_with(b"10=").then_some(end)
    })
}

/// Whether 11 and 12 would not refuse these bytes. 13 and 14 are not asked.
fn is_whole(bytes: &[u8]) -> bool {
    let refused = |answer: u64| message::read(bytes, Depth::Order).err() == Some(answer);
    match frame::open(bytes) {
        Ok(_) if on(Flip::SalvageTypeAsked) => !refused(TYPE),
        Ok(_) if on(Flip::SalvageFieldsAsked) => !refused(FIELDS),
        Ok(_) => true,
        Err(answer) => answer == CHECKSUM && on(Flip::SalvageSumNotAsked),
    }
}

/// Whether a flip passes over the message of this length.
fn is_lost(rest: &[u8], length: usize) -> bool {
    let holds_another = || (1..length).any(|place| stretch(&rest[place..length]).is_some());
    (on(Flip::SalvageShortestLost) && length == 26)
        || (on(Flip::SalvageLongestLost) && length == 8_192)
        || (on(Flip::SalvageEndLost) && length == rest.len())
        || (on(Flip::SalvageInnerTaken) && holds_another())
}

/// How many bytes are passed over where no message is taken: one.
fn passed(rest: &[u8]) -> usize {
    if on(Flip::SalvageStretchPassed) {
        named(rest).map_or(1, |length| length.min(rest.len()))
    } else {
        1
    }
}

/// The length that tag 9 names, whatever stands there.
fn named(rest: &[u8]) -> Option<usize> {
    let field = rest.strip_prefix(BEGIN)?.split(|byte| *byte == SOH).next()?;
    let count: usize = std::str::from_utf8(field.strip_prefix(b"9=")?).ok()?.parse().ok()?;
    count.checked_add(BEGIN.len() + field.len() + 1 + TRAILER_BYTES)
}

/// The pieces of a recording from a byte on. They cover it exactly once, in order.
pub fn pieces(recording: &[u8], from: usize) -> Vec<Piece> {
    let mut pieces = Vec::new();
    let mut place = from;
    if let Some(end) = end_of_message_around(recording, from) {
        add(&mut pieces, Piece { message: false, start: from, length: end - from });
        place = end;
    }
    while place < recording.len() {
        let rest = &recording[place..];
        let found = stretch(rest);
        let length = found.unwrap_or_else(|| passed(rest));
        add(&mut pieces, Piece { message: found.is_some(), start: place, length });
        place += length;
    }
    pieces
}

/// Where the message ends in whose middle a walk starts; none, for a walk sees what lies from
/// there on.
fn end_of_message_around(recording: &[u8], from: usize) -> Option<usize> {
    if from == 0 || !on(Flip::SalvageSeesBack) {
        return None;
    }
    let around = |piece: &Piece| piece.message && piece.start < from && from < piece.end();
    pieces(recording, 0).into_iter().find(around).map(|piece| piece.end())
}

/// Adds a piece; neighbouring passed bytes form one run.
fn add(pieces: &mut Vec<Piece>, piece: Piece) {
    match pieces.last_mut() {
        Some(last) if !last.message && !piece.message && !on(Flip::SalvageBytesApart) => {
            last.length += piece.length;
        }
        _ => pieces.push(piece),
    }
}

/// How many results fit into room of so many numbers.
fn most_pieces(room: u64) -> usize {
    let after_head = room.saturating_sub(HEAD_NUMBERS);
    let most = if on(Flip::SalvageRoomPart) {
        after_head.div_ceil(PIECE_NUMBERS)
    } else {
        after_head.saturating_sub(either(Flip::SalvageRoomSpare, 0, 1)) / PIECE_NUMBERS
    };
    most as usize
}

/// A walk from a byte on in room of so many numbers, or 18. Gives all numbers of the room; those
/// behind the results, which a walk leaves as they were, are 0.
pub fn salvage(recording: &[u8], from: u64, room: u64) -> Result<Vec<u64>, u64> {
    let length = recording.len() as u64;
    let least_room = either(Flip::SalvageRoom4, LEAST_ROOM, LEAST_ROOM - 1);
    let most_from = either(Flip::SalvageFromPast, length, length + 1);
    let at_end = on(Flip::SalvageFromAtEnd) && from == length;
    if from > most_from || at_end || room < least_room {
        return Err(ARGUMENT);
    }
    let mut told = pieces(recording, from as usize);
    let most = most_pieces(room);
    told.truncate(most);
    if on(Flip::SalvageRunCut) && told.len() == most {
        told.iter_mut().rev().take(1).filter(|last| !last.message).for_each(|last| last.length = 1);
    }
    let next = told.last().map_or(from, |last| last.end() as u64);
    let mut numbers = vec![next, told.len() as u64];
    let before = either(Flip::SalvageStartsFromFrom, 0, from);
    for piece in told {
        numbers.extend([u64::from(piece.message), piece.start as u64 - before, piece.length as u64]);
    }
    numbers.resize(room as usize, 0);
    Ok(numbers)
}
