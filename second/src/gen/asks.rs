//! Questions: quotes, writings, states and summaries, with good arguments and bad ones.

use super::exchange::TrueBook;
use super::{bounds, clock, values, Generator};
use crate::keeper::{Writing, LONGEST_WRITING, STORE_NUMBERS};
use crate::script::Call;

/// SecurityID arguments at the bounds of their range.
const EDGE_IDS: [u64; 6] = [0, 1, 999_999_999_999_999_999, 1_000_000_000_000_000_000, 1 << 63, u64::MAX];

/// A sender or target of the most bytes.
const LONGEST_NAME: &[u8] = b"ABCDEFGHIJKLMNOP";

/// k and m outside their range.
#[rustfmt::skip]
const ODD_TURNS: [(u64, u64); 10] = [
    (0, 1), (0, 0), (2, 1), (16, 15), (1, 17), (17, 17), (1, 0), (u64::MAX, u64::MAX), (1, u64::MAX),
    (257, 300),
];

impl Generator {
    /// An instrument to ask about: mostly a Live one.
    pub(super) fn asked_id(&mut self) -> u64 {
        let live = self.marked(false);
        match self.rng.below(40) {
            0 => *self.rng.pick(&EDGE_IDS),
            1 | 2 => self.rng.between(1, 99),
            3..=8 => *self.rng.pick(&self.exchange.ids),
            _ if live.is_empty() => *self.rng.pick(&self.exchange.ids[..self.exchange.followed]),
            _ => self.exchange.ids[*self.rng.pick(&live)],
        }
    }

    /// A limit in seconds, now and then above 86,400.
    pub(super) fn some_limit(&mut self) -> u64 {
        match self.rng.below(12) {
            0 => 0,
            1 => 86_400,
            2 => *self.rng.pick(&[86_401, u64::MAX, 1 << 32]),
            3 => self.rng.between(0, 86_400),
            _ => *self.rng.pick(&[1, 5, 30, 60, 3600]),
        }
    }

    /// Now, aimed at the bounds of the age.
    pub(super) fn some_now(&mut self, limit: u64) -> Vec<u8> {
        let heard = self.channel().and_then(|channel| channel.heard);
        let heard_ms = heard.map_or(self.exchange.clock_ms, |heard| clock::ms_of(&heard));
        let limit_ms = (limit.min(100_000) * 1000) as i64;
        let ms = heard_ms
            + match self.rng.below(16) {
                0 | 1 => 0,
                2 | 3 => -1,
                4 | 5 => limit_ms,
                6 | 7 => limit_ms + 1,
                8 => limit_ms - 1,
                9 => self.rng.between(0, 400 * clock::DAY_MS as u64) as i64 - 200 * clock::DAY_MS,
                10 => 60_000 - heard_ms % 60_000,
                14 | 15 => clock::DAY_MS - heard_ms % clock::DAY_MS + self.rng.below(1000) as i64,
                11 => return bounds::moment(&mut self.rng).into_bytes(),
                12 => {
                    return format!("{}-{}", values::date(&mut self.rng), values::time(&mut self.rng))
                        .into_bytes()
                }
                _ => self.rng.between(0, 2 * limit_ms.max(1) as u64) as i64,
            };
        clock::some_text(&mut self.rng, ms).into_bytes()
    }

    pub(super) fn quote(&mut self) {
        let call = self.quote_call();
        self.call(call);
    }

    pub(super) fn quote_call(&mut self) -> Call {
        let (id, limit) = (self.asked_id(), self.some_limit());
        let now = self.some_now(limit);
        let room = if self.rng.chance(90) { 17 } else { *self.rng.pick(&[0, 1, 16, 18, 32]) };
        Call::Quote { store_n: STORE_NUMBERS, id, now, limit, room }
    }

    /// A sender or target, now and then a bad one.
    fn some_name(&mut self) -> Vec<u8> {
        match self.rng.below(16) {
            0 => bounds::bound(&mut self.rng, 37),
            1 => self.rng.pick::<&[u8]>(&[b"", b"A B", b"A\x01B", b"\x7f", b"ABCDEFGHIJKLMNOPQ"]).to_vec(),
            2 | 3 => LONGEST_NAME.to_vec(),
            _ => values::name(&mut self.rng).into_bytes(),
        }
    }

    /// k and m, mostly with k at most m.
    fn some_turn(&mut self) -> (u64, u64) {
        if self.rng.chance(8) {
            return *self.rng.pick(&ODD_TURNS);
        }
        let m = *self.rng.pick(&[1, 2, 9, 10, 16, 16]);
        let k = if self.rng.chance(40) { m } else { self.rng.between(1, m) };
        (k, m)
    }

    pub(super) fn write(&mut self) {
        let call = self.write_call();
        self.call(call);
    }

    pub(super) fn write_call(&mut self) -> Call {
        let id = self.asked_id();
        let names = [self.some_name(), self.some_name()];
        let turn = self.some_turn();
        self.write_call_of(id, names, turn)
    }

    /// Gives an instrument the longest book, and asks for its longest writing.
    pub(super) fn longest_write(&mut self) {
        let index = self.rng.below(self.exchange.followed);
        self.give_book(index, TrueBook::longest());
        let names = [LONGEST_NAME.to_vec(), LONGEST_NAME.to_vec()];
        let call = self.write_call_of(self.exchange.ids[index], names, (16, 16));
        self.call(call);
    }

    fn write_call_of(&mut self, id: u64, names: [Vec<u8>; 2], turn: (u64, u64)) -> Call {
        let ([sender, target], (k, m)) = (names, turn);
        let time = self.some_now(30);
        let writing = Writing { id, sender: &sender, target: &target, k, m, time: &time };
        let written = self.guide.write(STORE_NUMBERS, &writing, u64::MAX).unwrap_or_default();
        let room = self.some_room(written.len() as u64);
        if !written.is_empty() && self.rng.chance(20) {
            self.kept.push(written);
        }
        Call::Write { store_n: STORE_NUMBERS, id, sender, target, k, m, time, room }
    }

    /// Room for a writing of this length: enough, just enough, or too little.
    fn some_room(&mut self, length: u64) -> u64 {
        match self.rng.below(12) {
            0 | 1 => length,
            2 => length.saturating_sub(1),
            3 => length + 1,
            4 => *self.rng.pick(&[0, 1, 103, 104, 110, LONGEST_WRITING - 1, LONGEST_WRITING]),
            _ => *self.rng.pick(&[LONGEST_WRITING, 8192]),
        }
    }

    /// Mostly a state of a Waiting instrument, which tells its reason.
    pub(super) fn state_of_waiting(&mut self) {
        let waiting = self.marked(true);
        if !waiting.is_empty() && self.rng.chance(60) {
            let id = self.exchange.ids[*self.rng.pick(&waiting)];
            self.call(Call::State { store_n: STORE_NUMBERS, id, room: 4 });
        }
    }

    pub(super) fn state(&mut self) {
        let call = self.state_call();
        self.call(call);
    }

    pub(super) fn state_call(&mut self) -> Call {
        let id = if self.rng.chance(60) {
            *self.rng.pick(&self.exchange.ids[..self.exchange.followed])
        } else {
            self.asked_id()
        };
        let room = if self.rng.chance(92) { 4 } else { *self.rng.pick(&[0, 1, 3, 5, 16]) };
        Call::State { store_n: STORE_NUMBERS, id, room }
    }

    pub(super) fn board(&mut self) {
        let call = self.board_call();
        self.call(call);
    }

    pub(super) fn board_call(&mut self) -> Call {
        let room = if self.rng.chance(92) { 5 } else { *self.rng.pick(&[0, 1, 4, 6, 17]) };
        Call::Board { store_n: STORE_NUMBERS, room }
    }
}
