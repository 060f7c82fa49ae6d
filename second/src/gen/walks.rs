//! Walks of recordings: from every sort of byte, in room good and bad, and on from where the one
//! before stopped.

use super::Generator;
use crate::salvage::{pieces, salvage, HEAD_NUMBERS, LEAST_ROOM, PIECE_NUMBERS};
use crate::script::Call;

/// How often a walk is gone on with at most.
const MOST_WALKS: usize = 4;

impl Generator {
    /// Walks a recording, and mostly goes on where the room was short.
    pub(super) fn salvage(&mut self) {
        let recording = self.some_recording();
        let mut from = self.some_from(&recording);
        let goes_on = self.rng.chance(60);
        for _ in 0..MOST_WALKS {
            let room = self.some_walk_room(&recording, from);
            let next = salvage(&recording, from, room).map_or(from, |numbers| numbers[0]);
            self.call(Call::Salvage { from, room, recording: recording.clone() });
            if next == from || next == recording.len() as u64 || !goes_on {
                break;
            }
            from = next;
        }
    }

    /// The byte to start at: mostly the first; any, a piece's second or one beside its first, the
    /// end, past it.
    fn some_from(&mut self, recording: &[u8]) -> u64 {
        let end = recording.len() as u64;
        match self.rng.below(12) {
            0 => self.rng.between(0, end),
            1 | 2 => self.some_start(recording) + 1,
            3 => (self.some_start(recording) + self.rng.between(0, 2)).saturating_sub(1),
            4 => *self.rng.pick(&[end, end, end + 1, end + 2, 1 << 32, u64::MAX]),
            _ => 0,
        }
    }

    /// The first byte of a piece; 0 where there is none.
    fn some_start(&mut self, recording: &[u8]) -> u64 {
        let pieces = pieces(recording, 0);
        if pieces.is_empty() {
            0
        } else {
            self.rng.pick(&pieces).start as u64
        }
    }

    /// Room for a walk: too little for one result, for a few, for just all, for more.
    fn some_walk_room(&mut self, recording: &[u8], from: u64) -> u64 {
        let all = salvage_numbers(recording, from);
        match self.rng.below(12) {
            0 => self.rng.between(0, LEAST_ROOM - 1),
            1..=3 => LEAST_ROOM + self.rng.between(0, 6),
            4 => all,
            5 => all - 1,
            6 => all + self.rng.between(1, 4),
            7 => *self.rng.pick(&[255, 256, 512]),
            _ => 62,
        }
    }
}

/// The most results that room is made just long enough for.
const MOST_FITTED: u64 = 100;

/// The numbers that all results take.
fn salvage_numbers(recording: &[u8], from: u64) -> u64 {
    let from = (from as usize).min(recording.len());
    HEAD_NUMBERS + PIECE_NUMBERS * (pieces(recording, from).len() as u64).min(MOST_FITTED)
}
