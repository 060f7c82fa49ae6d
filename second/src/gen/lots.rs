//! Lots: quantities at their bounds and about the sizes of a side, and books whose sums land on the
//! bounds of a signed 64-bit number, leave them and come back.

use super::exchange::{Row, TrueBook};
use super::rng::Rng;
use super::{clock, values, Generator};
use crate::field::PRICE_END;
use crate::keeper::STORE_NUMBERS;
use crate::lot::{Way, LARGEST_LOT, LOT_NUMBERS};
use crate::script::Call;

/// Quantities at the bounds of their range, and outside.
const EDGE_QUANTITIES: [u64; 10] =
    [0, 0, 1, 2, LARGEST_LOT - 1, LARGEST_LOT, LARGEST_LOT + 1, LARGEST_LOT + 1, 1 << 63, u64::MAX];

/// The bounds of a signed 64-bit number.
const MOST: i128 = i64::MAX as i128;
const LEAST: i128 = i64::MIN as i128;

/// Sums to aim at: the bounds, one beyond them, half of them, and about 0.
#[rustfmt::skip]
const SUMS: [i128; 14] = [
    MOST, MOST, MOST, MOST + 1, MOST + 1, LEAST, LEAST, LEAST, LEAST - 1, LEAST - 1, MOST / 2, LEAST / 2,
    1, -1,
];

/// A size at least as great as this makes a price out of any step from one of these sums to another,
/// and so does two to this power.
const LEAST_SIZE: u64 = ((MOST - LEAST) / PRICE_END as i128) as u64 + 1;
const LEAST_POWER: u64 = LEAST_SIZE.ilog2() as u64 + 1;
/// How many sums a side is aimed at, at most, and the size that leaves a lot enough for them.
const MOST_SUMS: usize = 4;
const MOST_SIZE: u64 = LARGEST_LOT / MOST_SUMS as u64 - 1;

/// A side in the making.
#[derive(Default)]
struct AimedSide {
    rows: Vec<Row>,
    /// The quantities at which its sum is one that was aimed at.
    quantities: Vec<u64>,
    units: u64,
}

impl AimedSide {
    /// A side whose sums are some of those to aim at, one after another.
    fn some(rng: &mut Rng) -> AimedSide {
        let mut side = AimedSide::default();
        let mut sum = 0;
        for _ in 0..1 + rng.below(MOST_SUMS) {
            let aim = if rng.chance(85) { *rng.pick(&SUMS) } else { i128::from(rng.next() as i64) };
            let size = some_size(rng);
            // Towards 0, so that the sum between stays between.
            let (price, rest) = ((aim - sum) / i128::from(size), (aim - sum) % i128::from(size));
            side.add(rng, price, size);
            if rest != 0 {
                side.add(rng, rest, 1);
            }
            side.quantities.push(side.units);
            sum = aim;
        }
        side.lengthen_last(rng);
        side
    }

    fn add(&mut self, rng: &mut Rng, price: i128, size: u64) {
        let price = values::price_of(rng, price as i64);
        self.rows.push(Row { price, size: size.to_string(), ..Row::some(rng) });
        self.units += size;
    }

    /// Now and then the last place has more than the quantity that was aimed at takes.
    fn lengthen_last(&mut self, rng: &mut Rng) {
        if let Some(last) = self.rows.last_mut().filter(|_| rng.chance(50)) {
            let size: u64 = last.size.parse().unwrap_or(1);
            last.size = rng.pick(&[size + 1, size + 1_000, LARGEST_LOT, 999_999_999_999]).to_string();
        }
    }
}

/// A size of an aimed place: a power of two leaves no rest beside the powers of two.
fn some_size(rng: &mut Rng) -> u64 {
    if rng.chance(40) {
        1 << rng.between(LEAST_POWER, 27)
    } else {
        rng.between(LEAST_SIZE, MOST_SIZE)
    }
}

/// An aimed side, or an ordinary one, which may be empty.
fn some_side(rng: &mut Rng) -> AimedSide {
    if rng.chance(75) {
        return AimedSide::some(rng);
    }
    AimedSide { rows: (0..rng.below(5)).map(|_| Row::some(rng)).collect(), ..AimedSide::default() }
}

impl Generator {
    /// A lot of some instrument, one way or the other.
    pub(super) fn lot(&mut self) {
        let call = self.lot_call();
        self.call(call);
    }

    pub(super) fn lot_call(&mut self) -> Call {
        let (way, id) = (self.some_way(), self.asked_id());
        let quantity = self.some_quantity(way, id);
        let (now, limit) = self.some_age();
        let room = self.some_lot_room();
        Call::Lot { way, store_n: STORE_NUMBERS, id, quantity, now, limit, room }
    }

    fn some_way(&mut self) -> Way {
        *self.rng.pick(&[Way::Sell, Way::Buy])
    }

    fn some_lot_room(&mut self) -> u64 {
        if self.rng.chance(90) {
            LOT_NUMBERS as u64
        } else {
            *self.rng.pick(&[0, 1, 4, 4, 6, 17])
        }
    }

    /// Now and a limit: mostly such that a quote is given, else as for a quote.
    fn some_age(&mut self) -> (Vec<u8>, u64) {
        let heard = self.channel().and_then(|channel| channel.heard);
        match heard {
            Some(heard) if self.rng.chance(65) => {
                let limit = *self.rng.pick(&[0, 1, 30, 86_400]);
                let ms = clock::ms_of(&heard) + self.rng.between(0, limit * 1000) as i64;
                (clock::text(ms).into_bytes(), limit)
            }
            _ => {
                let limit = self.some_limit();
                (self.some_now(limit), limit)
            }
        }
    }

    /// How many units each place of an instrument's side and those before it hold, as far as a lot
    /// can take them.
    fn held_up_to(&self, way: Way, id: u64) -> Vec<u64> {
        let instrument = self.channel().and_then(|channel| channel.find(id));
        let sizes = instrument.map_or(Vec::new(), |found| way.side(&found.book).to_vec());
        let held = sizes.iter().scan(0, |held, place| {
            *held += place.size;
            Some(*held)
        });
        held.filter(|held| *held <= LARGEST_LOT).collect()
    }

    /// A quantity: at a bound, about what some places hold, or any.
    fn some_quantity(&mut self, way: Way, id: u64) -> u64 {
        let held = self.held_up_to(way, id);
        match self.rng.below(10) {
            0 | 1 => *self.rng.pick(&EDGE_QUANTITIES),
            2..=6 if !held.is_empty() => self.about(&held),
            2..=4 => self.rng.between(1, LARGEST_LOT),
            _ => self.rng.between(1, 20_000),
        }
    }

    /// One of these quantities, or one beside it.
    fn about(&mut self, quantities: &[u64]) -> u64 {
        (self.rng.pick(quantities) + self.rng.between(0, 2)).saturating_sub(1)
    }

    /// Gives an instrument a book whose sums were aimed, and asks for lots about them.
    pub(super) fn aimed_lots(&mut self) {
        let index = self.rng.below(self.exchange.followed);
        let sides = [some_side(&mut self.rng), some_side(&mut self.rng)];
        let book = TrueBook { sides: [sides[0].rows.clone(), sides[1].rows.clone()] };
        self.give_book(index, book);
        for _ in 0..3 + self.rng.below(3) {
            let way = self.some_way();
            let aimed = &sides[usize::from(way == Way::Buy)].quantities;
            self.aimed_lot(way, self.exchange.ids[index], aimed);
        }
    }

    fn aimed_lot(&mut self, way: Way, id: u64, aimed: &[u64]) {
        let quantity = match self.rng.below(4) {
            0 | 1 if !aimed.is_empty() => *self.rng.pick(aimed),
            2 if !aimed.is_empty() => self.about(aimed),
            _ => self.some_quantity(way, id),
        };
        let (now, limit) = self.some_age();
        let room = self.some_lot_room();
        self.call(Call::Lot { way, store_n: STORE_NUMBERS, id, quantity, now, limit, room });
    }

    /// Gives an instrument this book: mostly by an X, and by a snapshot where it then waits.
    pub(super) fn give_book(&mut self, index: usize, book: TrueBook) {
        if self.exchange.at_end() || (self.waits(index) && self.rng.chance(50)) {
            self.exchange.set_book(index, book.clone());
        } else {
            let message = self.exchange.next_book(&mut self.rng, index, book.clone()).seal();
            self.feed(message);
        }
        if self.waits(index) {
            let (h, _) = self.h_and_b();
            let message = self.snapshot_draft(index, h, &book).seal();
            self.feed(message);
        }
    }

    fn waits(&self, index: usize) -> bool {
        self.marked(true).contains(&index)
    }
}
