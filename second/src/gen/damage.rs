//! Stores changed number by number: each to just outside its range and just inside, and several
//! at once so that a rule of soundness is broken, or just not broken.

use super::rng::Rng;
use super::{values, Generator};
use crate::field::PRICE_END;
use crate::layout::*;
use crate::script::Call;

/// The words of order ids: the greatest, and the least of 8 bytes.
const GREATEST_ID_WORD: u64 = 6_161_234_432_565_770;
const LEAST_FULL_ID_WORD: u64 = 65_545_047_154_955;
/// One above the number of the last moment.
const MOMENTS: u64 = 3_652_425 * 87_840_000;
/// One above the number of the highest price.
const PRICES: u64 = 2 * PRICE_END - 1;

/// Numbers of the store to set.
type Changes = Vec<(u64, u64)>;

/// What a store number is, where it is used.
enum Use {
    Heading(usize),
    Id,
    Reason,
    Held,
    /// One of the five numbers of a place.
    Place(usize),
    /// One of the first five numbers of queue entry `k`.
    Slot(usize, usize),
    Unused,
}

/// What the number at an index is.
fn use_of(store: &[u64], index: usize) -> Use {
    let followed = store[AT_FOLLOWED] as usize;
    if index < HEADING {
        return Use::Heading(index);
    }
    if (record(0)..record(followed)).contains(&index) {
        return match (index - record(0)) % 8 {
            0 => Use::Id,
            1 => Use::Reason,
            _ => Use::Unused,
        };
    }
    if (side(0, 0)..side(followed, 0)).contains(&index) {
        return in_side(store, index - (index - side(0, 0)) % 128, index);
    }
    if (slot(0)..slot(store[AT_QUEUED] as usize)).contains(&index) {
        return in_slot(store, (index - slot(0)) / 11, (index - slot(0)) % 11);
    }
    Use::Unused
}

/// What a number of the side at `at` is.
fn in_side(store: &[u64], at: usize, index: usize) -> Use {
    let held = store[at] as usize;
    match index - at {
        0 => Use::Held,
        i if i <= held * PLACE => Use::Place((i - 1) % PLACE),
        _ => Use::Unused,
    }
}

/// What number `i` of queue entry `k` is: J, of one or for all, and the deletes have no place.
fn in_slot(store: &[u64], k: usize, i: usize) -> Use {
    let (what, action) = (store[slot(k) + 2], store[slot(k) + 3]);
    match i {
        0..=2 => Use::Slot(k, i),
        3 | 4 if what < 2 => Use::Slot(k, i),
        5..=9 if what < 2 && action < 2 => Use::Place(i - 5),
        _ => Use::Unused,
    }
}

/// The least and the greatest value of the number at an index, all others being as they are. Not
/// every value between them need be sound: SecurityIDs don't repeat, and one that is Live may hold
/// places.
pub fn range(store: &[u64], index: usize) -> (u64, u64) {
    match use_of(store, index) {
        Use::Heading(i) => heading_range(store, i),
        Use::Id => (1, 999_999_999_999_999_999),
        Use::Reason => (0, 2),
        Use::Held => (store[index], store[index]),
        Use::Place(i) => place_range(store, index, i),
        Use::Slot(k, i) => slot_range(store, k, i),
        Use::Unused => (0, 0),
    }
}

fn heading_range(store: &[u64], i: usize) -> (u64, u64) {
    let (h, b, marks) = (store[AT_H], store[AT_B], store[AT_MARKS]);
    // While nothing is heard the heard time is zero.
    let least_h = u64::from(store[AT_HEARD] > 0);
    match i {
        AT_DEPTH => (0, 1),
        AT_H if marks == 0 => (b, b),
        AT_H => (last_queued(store).unwrap_or(b).max(least_h), 4_294_967_295),
        AT_B if marks == 0 => (h, h),
        AT_B => (0, first_queued(store).map_or(h, |first| first - 1)),
        AT_HEARD if h > 0 => (0, MOMENTS - 1),
        AT_HEARD => (0, 0),
        AT_MARKS => (0, (1 << store[AT_FOLLOWED]) - 1),
        AT_REPORTS..=AT_NAMED => loop_range(store, i),
        // Another layout's number; or a count that leaves something unused or something missing.
        _ => (store[i], store[i]),
    }
}

/// The numbers of the loop record: all zero where no loop runs.
fn loop_range(store: &[u64], i: usize) -> (u64, u64) {
    match i {
        _ if store[AT_REPORTS] == 0 => (0, 0),
        AT_REPORTS => (store[AT_COME] + 1, 4_294_967_295),
        AT_COME => (1, store[AT_REPORTS] - 1),
        AT_LOWEST => (0, 4_294_967_295),
        _ => (0, (1 << store[AT_FOLLOWED]) - 1),
    }
}

fn first_queued(store: &[u64]) -> Option<u64> {
    (store[AT_QUEUED] > 0).then_some(store[slot(0)])
}

fn last_queued(store: &[u64]) -> Option<u64> {
    let k = store[AT_QUEUED].checked_sub(1)? as usize;
    Some(store[slot(k)])
}

fn place_range(store: &[u64], index: usize, i: usize) -> (u64, u64) {
    let by_order = store[AT_DEPTH] == 0;
    match i {
        0 => (0, PRICES - 1),
        1 => (1, 999_999_999_999),
        2 if by_order && store[index + 1] > 0 => (LEAST_FULL_ID_WORD, GREATEST_ID_WORD),
        2 if by_order => (1, GREATEST_ID_WORD),
        2 => (1, 65_535),
        3 if by_order && store[index - 1] >= LEAST_FULL_ID_WORD => (0, GREATEST_ID_WORD),
        3 => (0, 0),
        _ => (0, MOMENTS - 1),
    }
}

fn slot_range(store: &[u64], k: usize, i: usize) -> (u64, u64) {
    let [who, what, action] = [1, 2, 3].map(|i| store[slot(k) + i]);
    let last = k + 1 == store[AT_QUEUED] as usize;
    match i {
        0 => {
            let low = if k > 0 { store[slot(k - 1)] } else { store[AT_B] + 1 };
            (low, if last { store[AT_H] } else { store[slot(k + 1)] })
        }
        1 if what == J_FOR_ALL => (0, 0),
        1 => (0, store[AT_FOLLOWED] - 1),
        2 if what < 2 => (0, 1),
        2 if who > 0 => (J_OF_ONE, J_OF_ONE),
        2 => (J_OF_ONE, J_FOR_ALL),
        3 if action < 2 => (0, 1),
        3 => (2, 4),
        _ => (1, 65_535),
    }
}

/// Values just outside the range of each of the store's numbers.
pub fn just_outside(store: &[u64]) -> Vec<(u64, u64)> {
    let mut outside = Vec::new();
    for index in 0..NUMBERS {
        let (low, high) = range(store, index);
        outside.push((index as u64, high + 1));
        if low > 0 {
            outside.push((index as u64, low - 1));
        }
    }
    outside
}

/// An index: as likely in the heading as in the records, the sides, the queue, or anywhere.
fn some_index(rng: &mut Rng, store: &[u64]) -> usize {
    let (followed, queued) = (store[AT_FOLLOWED] as usize, store[AT_QUEUED] as usize);
    match rng.below(10) {
        0 | 1 => rng.below(HEADING),
        2 => record(rng.below(16.min(followed + 1))) + rng.below(8),
        3 => side(rng.below(16.min(followed + 1)), rng.below(2)) + rng.below(128),
        4 | 5 => {
            let at = side(rng.below(followed), rng.below(2));
            at + rng.below(2 + PLACE * store[at] as usize)
        }
        6 | 7 => slot(rng.below(256.min(queued + 1))) + rng.below(11),
        8 => *rng.pick(&[12, 31, 32 + 128 - 1, 160 + 128 * 32 - 1, 4_256 + 2_816 - 1, 7_072, 7_167]),
        _ => rng.below(NUMBERS),
    }
}

/// A value for the number at an index: about a bound of its range, or about what it is.
fn some_value(rng: &mut Rng, store: &[u64], index: usize) -> u64 {
    let (low, high) = range(store, index);
    let now = store[index];
    match rng.below(12) {
        0..=2 => high + 1,
        3 => high,
        4 => low.wrapping_sub(1),
        5 => low,
        6 => rng.between(low, high),
        7 => now.wrapping_add(1),
        8 => now.wrapping_sub(1),
        9 => now ^ (1 << rng.below(64)),
        10 => *rng.pick(&[0, 1, 2, 3, 16, 17, 20, 21, 65_536, 1 << 32]),
        _ => *rng.pick(&[u64::MAX, 1 << 63, (1 << 63) - 1, now.rotate_left(32)]),
    }
}

/// The five numbers of a good place.
fn good_place(rng: &mut Rng, store: &[u64]) -> [u64; PLACE] {
    let by_order = store[AT_DEPTH] == 0;
    let full = by_order && rng.chance(50);
    let by = match (by_order, full) {
        (true, true) => rng.between(LEAST_FULL_ID_WORD, GREATEST_ID_WORD),
        (true, false) => rng.between(1, GREATEST_ID_WORD),
        _ => rng.between(1, 65_535),
    };
    let more = if full { rng.between(0, GREATEST_ID_WORD) } else { 0 };
    let (price, size) = (rng.between(0, PRICES - 1), rng.between(1, 999_999_999_999));
    [price, size, by, more, rng.between(0, MOMENTS - 1)]
}

/// Changes that set a run of numbers from `at` on.
fn set_run(at: usize, numbers: &[u64]) -> Changes {
    numbers.iter().enumerate().map(|(i, number)| ((at + i) as u64, *number)).collect()
}

/// One number, or two, about the bounds of their ranges.
fn some_numbers(rng: &mut Rng, store: &[u64]) -> Changes {
    (0..1 + rng.below(7) / 6)
        .map(|_| {
            let index = some_index(rng, store);
            (index as u64, some_value(rng, store, index))
        })
        .collect()
}

/// The heading changed against the rest: numbers, marks and counts that do not fit.
fn change_heading(rng: &mut Rng, store: &[u64]) -> Changes {
    let (h, b, marks) = (store[AT_H], store[AT_B], store[AT_MARKS]);
    let (followed, queued) = (store[AT_FOLLOWED], store[AT_QUEUED]);
    let one = |at: usize, value: u64| vec![(at as u64, value)];
    match rng.below(13) {
        0 => one(AT_B, h + 1),
        1 => one(AT_B, h.saturating_sub(1)),
        2 => one(AT_H, b.saturating_sub(1)),
        3 => one(AT_MARKS, marks ^ (1 << rng.below(followed as usize + 1))),
        4 => one(AT_MARKS, *rng.pick(&[0, (1 << followed) - 1, 1 << followed, 65_535, 65_536])),
        5 => [one(AT_MARKS, 0), one(AT_QUEUED, 0), one(AT_B, h)].concat(),
        6 => [one(AT_MARKS, 0), one(AT_B, h)].concat(),
        7 => one(AT_QUEUED, *rng.pick(&[queued + 1, queued.saturating_sub(1), 0, 256, 257])),
        8 => one(AT_FOLLOWED, *rng.pick(&[followed + 1, followed - 1, 0, 16, 17])),
        9 => one(AT_DEPTH, 1 - store[AT_DEPTH]),
        10 => [one(AT_H, 0), one(AT_B, 0), one(AT_HEARD, rng.between(0, 1))].concat(),
        11 => one(AT_LAYOUT, *rng.pick(&[LAYOUT + 1, 0])),
        _ => one(AT_H, h + rng.between(1, 3)),
    }
}

/// The numbers of the layouts before this one.
pub fn older_layouts() -> Vec<Changes> {
    OLDER_LAYOUTS.map(|older| vec![(AT_LAYOUT as u64, older)]).to_vec()
}

/// Loop records at the edges of their ranges, just inside and just outside: where one runs and
/// where none does.
pub fn loop_edges(store: &[u64]) -> Vec<Vec<(u64, u64)>> {
    let most = 4_294_967_295;
    let all = (1 << store[AT_FOLLOWED]) - 1;
    #[rustfmt::skip]
    let records = [
        [0, 0, 0, 0], [1, 0, 0, 0], [0, 1, 0, 0], [0, 0, 1, 0], [0, 0, 0, 1], [0, 1, 1, 1], [1, 1, 0, 0],
        [1, 1, 1, 1], [2, 0, 0, 0], [2, 1, 0, 0], [2, 2, 0, 0], [3, 2, 5, all], [3, 3, 5, all], [3, 4, 5, all],
        [most, 1, 0, 0], [most, most - 1, 0, 1], [most, most, 0, 1], [most + 1, 1, 0, 0],
        [most + 1, most, 0, 0], [u64::MAX, 1, 0, 0], [2, 1, most, 0], [2, 1, most + 1, 0],
        [2, 1, u64::MAX, 0], [2, 1, 0, all], [2, 1, 0, all + 1], [2, 1, 0, 1 << 16], [2, 1, 0, 1 << 63],
        [2, u64::MAX, 0, 0],
    ];
    records.iter().map(|record| set_run(AT_REPORTS, record)).collect()
}

/// A loop record put in place of the one that runs or does not run.
fn change_loop(rng: &mut Rng, store: &[u64]) -> Changes {
    if rng.chance(70) {
        return rng.pick(&loop_edges(store)).clone();
    }
    let reports = rng.between(1, 20);
    let (come, lowest) = (rng.between(0, reports), rng.between(0, store[AT_H] + 1));
    set_run(AT_REPORTS, &[reports, come, lowest, rng.between(0, 1 << store[AT_FOLLOWED])])
}

/// Instruments that repeat, that are not there, or one more.
fn change_instruments(rng: &mut Rng, store: &[u64]) -> Changes {
    let followed = store[AT_FOLLOWED] as usize;
    let (i, j) = (rng.below(followed), rng.below(followed));
    let next = followed.min(15);
    let added = |id: u64, waiting: bool| {
        let marks = store[AT_MARKS] | u64::from(waiting) << next;
        vec![(AT_FOLLOWED as u64, followed as u64 + 1), (AT_MARKS as u64, marks), (record(next) as u64, id)]
    };
    match rng.below(8) {
        0 | 1 => vec![(record(i) as u64, store[record(j)])],
        2 => added(store[record(i)], true),
        3 | 4 => added(rng.between(61, 99), rng.chance(50)),
        5 => vec![(record(i) as u64 + 1, rng.between(0, 3))],
        6 => vec![(record(next) as u64 + rng.between(0, 7), 1)],
        _ => vec![(record(i) as u64, rng.between(61, 99))],
    }
}

/// A side with one place more or fewer, of an instrument that waits or not.
fn change_side(rng: &mut Rng, store: &[u64]) -> Changes {
    let at = side(rng.below(store[AT_FOLLOWED] as usize), rng.below(2));
    let held = store[at] as usize;
    let end = at + 1 + held * PLACE;
    let count = |n: usize| vec![(at as u64, n as u64)];
    match rng.below(7) {
        0..=2 if held < 20 => [count(held + 1), set_run(end, &good_place(rng, store))].concat(),
        3 if held > 0 => [count(held - 1), set_run(end - PLACE, &[0; PLACE])].concat(),
        4 if held > 0 => count(held - 1),
        5 => vec![((end + rng.below(PLACE)) as u64, 1)],
        6 if held > 0 => set_run(at + 1 + PLACE * rng.below(held), &good_place(rng, store)),
        _ => count(held + 1),
    }
}

/// A good queue entry with this number.
fn good_slot(rng: &mut Rng, store: &[u64], number: u64) -> [u64; SLOT] {
    let (what, action) = (rng.between(0, J_FOR_ALL), rng.between(0, 4));
    let who = if what == J_FOR_ALL { 0 } else { rng.between(0, store[AT_FOLLOWED] - 1) };
    let mut words = [number, who, what, action, rng.between(1, 25), 0, 0, 0, 0, 0];
    if what >= J_OF_ONE {
        words[3..5].copy_from_slice(&[0, 0]);
    } else if action < 2 {
        words[5..].copy_from_slice(&good_place(rng, store));
    }
    words
}

/// Queue entries added, left out, out of order, or saying what they may not.
fn change_queue(rng: &mut Rng, store: &[u64]) -> Changes {
    let queued = store[AT_QUEUED] as usize;
    let (h, b) = (store[AT_H], store[AT_B]);
    let length = |n: usize| vec![(AT_QUEUED as u64, n as u64)];
    let k = rng.below(queued.max(1));
    let at = slot(k);
    match rng.below(12) {
        0..=2 if queued < 256 => {
            [length(queued + 1), set_run(slot(queued), &good_slot(rng, store, h))].concat()
        }
        3 if queued > 0 => [length(queued - 1), set_run(slot(queued - 1), &[0; SLOT])].concat(),
        4 if queued > 0 => vec![(at as u64, *rng.pick(&[b, b + 1, h, h + 1]))],
        5 if k > 0 => vec![(at as u64, store[slot(k - 1)].wrapping_sub(rng.between(0, 1)))],
        6 if k > 0 => {
            [set_run(at, &slot_at(store, k - 1)), set_run(slot(k - 1), &slot_at(store, k))].concat()
        }
        7 if queued > 0 => set_run(at, &good_slot(rng, store, store[at])),
        8 if queued > 0 => set_run(at + 2, &[2, rng.between(0, 1), rng.between(0, 1), 0, 0, 0, 0, 0]),
        9 if queued > 0 => vec![(at as u64 + 3, rng.between(0, 5))],
        10 => vec![((slot(queued.min(255)) + rng.below(11)) as u64, 1)],
        _ => vec![((at + 10) as u64, 1)],
    }
}

/// A queue entry as J for all, or just not: with an instrument, of another kind, or without one of
/// its zeros.
fn change_for_all(rng: &mut Rng, store: &[u64]) -> Changes {
    let queued = store[AT_QUEUED] as usize;
    if queued == 0 {
        return some_numbers(rng, store);
    }
    let mut words = [0, J_FOR_ALL, 0, 0, 0, 0, 0, 0, 0, 0];
    match rng.below(6) {
        0 | 1 => words[0] = rng.between(1, 2),
        2 | 3 => words[1] = *rng.pick(&[J_OF_ONE, J_FOR_ALL + 1, J_FOR_ALL + 1, 1 << 32 | J_FOR_ALL]),
        4 => words[2 + rng.below(8)] = 1,
        _ => {}
    }
    set_run(slot(rng.below(queued)) + 1, &words)
}

fn slot_at(store: &[u64], k: usize) -> [u64; SLOT] {
    std::array::from_fn(|i| store[slot(k) + i])
}

/// Where number `i` of some place stands, if a place is held or queued.
fn some_place(rng: &mut Rng, store: &[u64], i: usize) -> Option<usize> {
    let is = |at: &usize| matches!(use_of(store, *at), Use::Place(n) if n == i);
    let places: Vec<usize> = (0..NUMBERS).filter(is).collect();
    (!places.is_empty()).then(|| *rng.pick(&places))
}

/// A price about the end of its range, or of the range that it had in the layouts before.
fn change_price(rng: &mut Rng, store: &[u64]) -> Changes {
    let Some(at) = some_place(rng, store, 0) else { return some_numbers(rng, store) };
    let end = *rng.pick(&[PRICES, PRICES / 10]);
    vec![(at as u64, rng.between(end - 2, end + 1))]
}

/// An order id whose two words do not go together, or just do.
fn change_order_id(rng: &mut Rng, store: &[u64]) -> Changes {
    let Some(at) = some_place(rng, store, 2) else { return some_numbers(rng, store) };
    let by = *rng.pick(&[LEAST_FULL_ID_WORD - 1, LEAST_FULL_ID_WORD, GREATEST_ID_WORD, GREATEST_ID_WORD + 1]);
    let more = *rng.pick(&[0, 1, GREATEST_ID_WORD, GREATEST_ID_WORD + 1]);
    set_run(at, &[by, more])
}

/// Changes to a store that was opened.
fn some_changes(rng: &mut Rng, store: &[u64]) -> Changes {
    match rng.below(17) {
        0..=4 => some_numbers(rng, store),
        5 | 6 => change_heading(rng, store),
        7 => change_instruments(rng, store),
        8 => change_side(rng, store),
        9 | 10 => change_queue(rng, store),
        11 => change_order_id(rng, store),
        12 | 13 => change_loop(rng, store),
        14 => change_price(rng, store),
        15 => change_for_all(rng, store),
        _ => rng.pick(&older_layouts()).clone(),
    }
}

impl Generator {
    /// Calls on stores that were changed; then the message that they were fed comes in turn.
    pub(super) fn damage(&mut self) {
        let message = self.some_draft().seal();
        let store = self.guide.words();
        for _ in 0..1 + self.rng.below(6) {
            let changes = match self.channel() {
                Some(_) => some_changes(&mut self.rng, &store),
                None => vec![(self.rng.below(NUMBERS) as u64, self.rng.next())],
            };
            let call = Box::new(self.some_call(&message));
            self.call(Call::Damage { changes, call });
        }
        if self.channel().is_some() {
            self.feed_to_changed_loop();
        }
        self.feed(message);
    }

    /// A call: mostly this message fed.
    fn some_call(&mut self, message: &[u8]) -> Call {
        let message = message.to_vec();
        match self.rng.below(13) {
            0 => self.quote_call(),
            1 | 2 => self.lot_call(),
            3 => self.write_call(),
            4 => self.state_call(),
            5 => self.board_call(),
            6 => Call::Open { store_n: NUMBERS as u64, depth: 0, ids: vec![self.rng.between(0, 9)] },
            7 => Call::Feed { store_n: NUMBERS as u64, message: values::noise(&mut self.rng) },
            _ => Call::Feed { store_n: NUMBERS as u64, message },
        }
    }
}
