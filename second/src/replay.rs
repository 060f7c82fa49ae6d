//! The calls that replay a recording: an opening, each message fed, and now and then a quote and
//! a snapshot of every followed instrument.

use crate::frame::SOH;
use crate::keeper::{LONGEST_WRITING, STORE_NUMBERS};
use crate::quote::QUOTE_NUMBERS;
use crate::script::Call;

/// What is asked of a recording.
pub struct Asked {
    pub depth: u64,
    pub ids: Vec<u64>,
    /// The moment at which quotes are asked for and snapshots are written.
    pub now: Vec<u8>,
    /// The limit of the quotes in seconds.
    pub limit: u64,
    /// After how many messages quotes and snapshots are asked for; 0 for the end alone.
    pub every: usize,
}

/// The messages of a recording, end to end: each goes up to the first field of tag 10.
pub fn messages(recording: &[u8]) -> Vec<&[u8]> {
    let mut messages = Vec::new();
    let (mut start, mut field) = (0, 0);
    for (i, byte) in recording.iter().enumerate() {
        if *byte == SOH {
            if recording[field..i].starts_with(b"10=") {
                messages.push(&recording[start..=i]);
                start = i + 1;
            }
            field = i + 1;
        }
    }
    if start < recording.len() {
        messages.push(&recording[start..]);
    }
    messages
}

/// The calls that replay a recording.
pub fn calls(recording: &[u8], asked: &Asked) -> Vec<Call> {
    let (store_n, depth) = (STORE_NUMBERS, asked.depth);
    let mut calls = vec![Call::Open { store_n, depth, ids: asked.ids.clone() }];
    let messages = messages(recording);
    for (i, message) in messages.iter().enumerate() {
        calls.push(Call::Feed { store_n, message: message.to_vec() });
        let due = asked.every > 0 && (i + 1) % asked.every == 0;
        if due || i + 1 == messages.len() {
            calls.extend(questions(asked));
        }
    }
    calls
}

/// A quote and a snapshot of every followed instrument.
fn questions(asked: &Asked) -> Vec<Call> {
    let m = asked.ids.len() as u64;
    let of_one = |(k, id): (u64, &u64)| {
        let (store_n, id, now) = (STORE_NUMBERS, *id, asked.now.clone());
        let (sender, target) = (b"SHED".to_vec(), b"YARD".to_vec());
        let quote =
            Call::Quote { store_n, id, now: now.clone(), limit: asked.limit, room: QUOTE_NUMBERS as u64 };
        let room = LONGEST_WRITING;
        let write = Call::Write { store_n, id, sender, target, k, m, time: now, room };
        [quote, write]
    };
    (1..).zip(&asked.ids).flat_map(of_one).collect()
}
