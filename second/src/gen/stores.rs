//! Openings good and bad, stores too short, and stores never opened.

use super::exchange::{Exchange, LAST_NUMBER};
use super::{clock, Generator};
use crate::answer::DONE;
use crate::days::day_of;
use crate::keeper::STORE_NUMBERS;
use crate::script::Call;

/// Store lengths under 7,168 numbers, or not under.
const LENGTHS: [u64; 8] = [0, 1, 1024, 7_167, 7_167, 7_168, 7_169, 8_192];

/// Days at which the calendar turns.
#[rustfmt::skip]
const TURNS: [(i64, i64, i64); 17] = [
    (2024, 2, 29), (2024, 3, 1), (2025, 3, 1), (2000, 3, 1), (1900, 3, 1), (0, 3, 1), (400, 3, 1),
    (100, 3, 1), (2025, 1, 1), (9999, 12, 30), (0, 1, 1), (1, 1, 1), (101, 1, 1), (401, 1, 1),
    (1901, 1, 1), (2001, 1, 1), (2101, 1, 1),
];

impl Generator {
    /// Distinct SecurityIDs, some at the bounds of their range.
    fn some_ids(&mut self, n: usize) -> Vec<u64> {
        let mut ids: Vec<u64> = Vec::new();
        while ids.len() < n {
            let id = match self.rng.below(12) {
                0 => *self.rng.pick(&[1, 999_999_999_999_999_999, 9, 10]),
                1 => self.rng.between(1, 999_999_999_999_999_999),
                _ => self.rng.between(1, 60),
            };
            if !ids.contains(&id) {
                ids.push(id);
            }
        }
        ids
    }

    /// Opens the store anew for another channel, after openings that are refused now and then.
    pub(super) fn reopen(&mut self) {
        if self.rng.chance(25) {
            self.wipe();
        }
        if self.rng.chance(40) {
            self.bad_open();
        }
        let followed = *self.rng.pick(&[1, 1, 2, 2, 3, 4, 8, 16]);
        let others = 1 + self.rng.below(4);
        let ids = self.some_ids(followed + others);
        let depth = self.rng.below(2) as u64;
        let store_n = if self.rng.chance(90) { STORE_NUMBERS } else { 8_192 };
        self.call(Call::Open { store_n, depth, ids: ids[..followed].to_vec() });
        let (number, clock_ms) = (self.first_number(), self.first_clock());
        self.exchange = Exchange::new(depth, ids, followed, number, clock_ms);
        self.kept.clear();
        self.after_opening();
    }

    /// Where the exchange stands at opening: at its start, under way, or near its last number.
    fn first_number(&mut self) -> u64 {
        match self.rng.below(12) {
            0 => LAST_NUMBER - self.rng.between(0, 40),
            1 => self.rng.between(1, 4_000_000_000),
            2..=4 => self.rng.between(1, 50),
            _ => 0,
        }
    }

    /// A day of this year, or a moment shortly before a day at which the calendar turns.
    fn first_clock(&mut self) -> i64 {
        let day = if self.rng.chance(50) { self.rng.pick(&TURNS) } else { &(2025, 1, 3) };
        let midnight = day_of(day.0, day.1, day.2) * clock::DAY_MS;
        (midnight + self.rng.between(0, 120_000) as i64 - 60_000).max(0)
    }

    /// Questions and snapshots before anything is heard, and after the first message.
    fn after_opening(&mut self) {
        if self.rng.chance(40) {
            self.recover_all();
            self.quote();
            self.lot();
            self.lot();
            self.write();
            self.state();
            self.board();
            self.next();
            self.quote();
            self.quote();
            self.lot();
        }
    }

    /// An opening with one argument out of range, or two, or just inside; gives its answer.
    fn bad_open(&mut self) -> u64 {
        let n = *self.rng.pick(&[1, 2, 15, 16]);
        let (mut store_n, mut depth, mut ids) = (STORE_NUMBERS, self.rng.below(2) as u64, self.some_ids(n));
        for _ in 0..1 + self.rng.below(2) {
            match self.rng.below(5) {
                0 => store_n = *self.rng.pick(&LENGTHS),
                1 => depth = *self.rng.pick(&[2, 2, 3, 256, u64::MAX]),
                2 => ids = self.ids_of_odd_count(),
                3 => ids.push(ids.first().copied().unwrap_or(0)),
                _ => ids.push(*self.rng.pick(&[0, 1_000_000_000_000_000_000, u64::MAX, 1 << 63])),
            }
        }
        self.rng.shuffle(&mut ids);
        self.call(Call::Open { store_n, depth, ids })
    }

    /// No SecurityIDs, or 17 and more.
    fn ids_of_odd_count(&mut self) -> Vec<u64> {
        let n = *self.rng.pick(&[0, 17, 17, 18, 40]);
        self.some_ids(n)
    }

    /// A store that was never opened, and calls on it.
    fn wipe(&mut self) {
        let value = *self.rng.pick(&[0, 1, 7, 1 << 63, u64::MAX]);
        self.call(Call::Wipe { value });
        for _ in 0..self.rng.below(4) {
            self.lend_another();
        }
    }

    /// An opening that is refused in the midst of a stream, or a call that lends a store of
    /// another length.
    pub(super) fn odd_store(&mut self) {
        if self.rng.chance(30) {
            if self.bad_open() == DONE {
                self.reopen();
            }
            return;
        }
        self.lend_another();
    }

    /// A call that lends a store of another length, now and then with a bad argument too.
    fn lend_another(&mut self) {
        let lent = *self.rng.pick(&LENGTHS);
        let from = self.calls.len();
        let keeper = self.guide.clone();
        match self.rng.below(7) {
            0 => self.quote(),
            1 | 2 => self.lot(),
            3 => self.write(),
            4 => self.state(),
            5 => self.board(),
            _ => self.late_or_next(),
        }
        self.guide = keeper;
        for call in self.calls.split_off(from) {
            let call = if self.rng.chance(40) { spoil(call) } else { call };
            self.call(lend(call, lent));
        }
    }

    fn late_or_next(&mut self) {
        if self.rng.chance(50) {
            self.late();
        } else {
            self.next();
        }
    }
}

/// The same call with an argument out of range.
fn spoil(mut call: Call) -> Call {
    match &mut call {
        Call::Quote { limit, .. } => *limit = 86_401,
        Call::Lot { quantity, .. } => *quantity = 0,
        Call::Write { k, .. } => *k = 17,
        Call::State { id, .. } => *id = 0,
        Call::Board { room, .. } => *room = 4,
        _ => {}
    }
    call
}

/// The same call with another store length.
fn lend(call: Call, lent: u64) -> Call {
    match call {
        Call::Open { depth, ids, .. } => Call::Open { store_n: lent, depth, ids },
        Call::Feed { message, .. } => Call::Feed { store_n: lent, message },
        Call::Quote { id, now, limit, room, .. } => Call::Quote { store_n: lent, id, now, limit, room },
        Call::Lot { way, id, quantity, now, limit, room, .. } => {
            Call::Lot { way, store_n: lent, id, quantity, now, limit, room }
        }
        Call::Write { id, sender, target, k, m, time, room, .. } => {
            Call::Write { store_n: lent, id, sender, target, k, m, time, room }
        }
        Call::State { id, room, .. } => Call::State { store_n: lent, id, room },
        Call::Board { room, .. } => Call::Board { store_n: lent, room },
        other => other,
    }
}
