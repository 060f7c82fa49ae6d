//! Messages with faults: bounds of every field, harmed fields, frames and bytes, great lengths.

use super::draft::Draft;
use super::exchange::Wish;
use super::rng::Rng;
use super::{bounds, harm, Generator};

impl Generator {
    /// A message to harm: the next one of the exchange, or a true snapshot.
    pub(super) fn some_draft(&mut self) -> Draft {
        if self.rng.chance(5) {
            self.edge_snapshot()
        } else if self.exchange.at_end() || self.rng.chance(40) {
            self.some_true_snapshot()
        } else if self.rng.chance(20) {
            self.exchange.next_other(&mut self.rng)
        } else if self.rng.chance(30) {
            let wish = Wish { entries: 1 + self.rng.below(3), sparse: true, ..Wish::default() };
            self.exchange.next_x(&mut self.rng, wish)
        } else {
            self.next_draft()
        }
    }

    /// A message, and the same harmed once, or twice in so many of a hundred.
    fn harmed_by(&mut self, harm: fn(&mut Rng, &mut Draft), twice: u64) -> (Draft, Draft) {
        let whole = self.some_draft();
        let mut harmed = whole.clone();
        harm(&mut self.rng, &mut harmed);
        if self.rng.chance(twice) {
            harm(&mut self.rng, &mut harmed);
        }
        (whole, harmed)
    }

    /// Feeds a harmed message, and mostly the whole one where the harmed one is refused.
    pub(super) fn feed_harmed(&mut self, whole: &Draft, harmed: Vec<u8>) {
        let answer = self.feed(harmed);
        if answer >= 11 && self.rng.chance(80) {
            self.feed(whole.seal());
        }
    }

    /// One field, or two, at a bound of its range or just outside.
    pub(super) fn bound(&mut self) {
        let (whole, harmed) = self.harmed_by(harm::to_bound, 10);
        self.feed_harmed(&whole, harmed.seal());
    }

    /// Fields dropped, doubled, moved or changed, with 9 and 10 mended or not.
    pub(super) fn harm_fields(&mut self) {
        let (whole, mut harmed) = self.harmed_by(harm::to_fields, 20);
        if self.rng.chance(8) {
            harmed.fields[0].1 = bounds::bound(&mut self.rng, 35);
        }
        let mended = self.rng.chance(85);
        let bytes = if mended { harmed.seal() } else { harm::seal_unmended(&mut self.rng, &whole, &harmed) };
        self.feed_harmed(&whole, bytes);
    }

    /// A wrong 8, 9 or 10, or a field that is none, now and then with a harmed field too.
    pub(super) fn harm_frame(&mut self) {
        let whole = self.some_draft();
        let mut harmed = whole.clone();
        if self.rng.chance(20) {
            harm::to_bound(&mut self.rng, &mut harmed);
        }
        let bytes = harm::seal_badly(&mut self.rng, &harmed);
        self.feed_harmed(&whole, bytes);
    }

    /// Single bytes changed, dropped, added.
    pub(super) fn harm_bytes(&mut self) {
        let whole = self.some_draft();
        let mut bytes = whole.seal();
        harm::to_bytes(&mut self.rng, &mut bytes);
        self.feed_harmed(&whole, bytes);
    }

    /// Messages of 8,190 to 8,194 bytes, of 63 to 65 entries, and of no bytes.
    pub(super) fn long(&mut self) {
        match self.rng.below(10) {
            0 => drop(self.feed(Vec::new())),
            1 | 2 => self.many_places(),
            3 | 4 if !self.exchange.at_end() => {
                let wish = Wish { entries: 63 + self.rng.below(3), ..Wish::default() };
                let message = self.exchange.next_x(&mut self.rng, wish).seal();
                self.feed(message);
            }
            _ => self.many_bytes(),
        }
    }

    /// Messages of 8,190 to 8,194 bytes.
    fn many_bytes(&mut self) {
        let whole = self.some_draft();
        let length = 8_190 + self.rng.below(5);
        let bytes = harm::lengthen(&whole, length);
        self.feed_harmed(&whole, bytes);
    }
}
