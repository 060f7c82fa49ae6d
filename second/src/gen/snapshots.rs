//! Snapshots: true ones, stale ones, early ones, over 20, of Live and of unfollowed instruments.

use std::rc::Rc;

use super::draft::Draft;
use super::entries::{self, SnapshotHead};
use super::exchange::{Row, TrueBook, LAST_NUMBER};
use super::{clock, Generator};
use crate::answer::REPLAY_BROKE;

impl Generator {
    /// A W of an instrument with this 369 and this book; its 34 and 911 are any.
    pub(super) fn snapshot_draft(&mut self, index: usize, last: u64, book: &TrueBook) -> Draft {
        let reports = 1 + self.rng.below(16) as u64;
        let number = if self.rng.chance(5) { LAST_NUMBER } else { 1 + self.rng.below(20) as u64 };
        self.numbered_snapshot(index, last, book, number, reports)
    }

    /// A W of an instrument with this 369 and this book, 34 and 911.
    pub(super) fn numbered_snapshot(
        &mut self,
        index: usize,
        last: u64,
        book: &TrueBook,
        number: u64,
        reports: u64,
    ) -> Draft {
        let later = self.rng.below(5000) as i64;
        let time = clock::some_text(&mut self.rng, self.exchange.clock_ms + later);
        let head = SnapshotHead { number, time, id: self.exchange.ids[index], last, reports };
        entries::snapshot(&mut self.rng, &head, book, self.exchange.depth)
    }

    /// A number that lies in B to H.
    fn some_last(&mut self) -> u64 {
        let (h, b) = self.h_and_b();
        match self.rng.below(5) {
            0 => b,
            1 => h,
            _ => self.rng.between(b.min(h), h),
        }
    }

    /// A true snapshot of an instrument, as of a number that lies in B to H.
    pub(super) fn true_snapshot(&mut self, index: usize) -> Draft {
        let last = self.some_last();
        self.snapshot_at(index, last)
    }

    /// A true snapshot of an instrument, as of this number.
    pub(super) fn snapshot_at(&mut self, index: usize, last: u64) -> Draft {
        let book = self.exchange.book_at(index, last);
        self.snapshot_draft(index, last, &book)
    }

    /// A true snapshot of some Waiting instrument, or now and then of any.
    pub(super) fn some_true_snapshot(&mut self) -> Draft {
        let waiting = self.marked(true);
        let index = if waiting.is_empty() || self.rng.chance(10) {
            self.rng.below(self.exchange.ids.len())
        } else {
            *self.rng.pick(&waiting)
        };
        self.true_snapshot(index)
    }

    /// One Waiting instrument gets a true snapshot.
    pub(super) fn recover(&mut self) {
        if self.marked(true).is_empty() && self.rng.chance(90) {
            return self.next();
        }
        let message = self.some_true_snapshot().seal();
        if self.feed(message) == REPLAY_BROKE {
            self.state_of_waiting();
        }
    }

    /// Every Waiting instrument gets a true snapshot, while the stream goes on.
    pub(super) fn recover_all(&mut self) {
        for index in self.marked(true) {
            let message = self.true_snapshot(index).seal();
            self.feed(message);
            if self.rng.chance(25) {
                self.next();
            }
        }
    }

    /// An instrument: mostly Waiting, or Live, or not followed.
    fn any_instrument(&mut self) -> usize {
        let waiting = self.marked(true);
        if !waiting.is_empty() && self.rng.chance(75) {
            return *self.rng.pick(&waiting);
        }
        self.rng.below(self.exchange.ids.len())
    }

    /// A snapshot just outside of what is taken, or just inside.
    pub(super) fn snapshot_edge(&mut self) {
        let message = self.edge_snapshot().seal();
        self.feed(message);
    }

    pub(super) fn edge_snapshot(&mut self) -> Draft {
        let index = self.any_instrument();
        let (h, b) = self.h_and_b();
        let inside = self.some_last();
        let last = match self.rng.below(8) {
            0 | 1 => b.saturating_sub(1),
            2 | 3 => (h + 1).min(LAST_NUMBER),
            4 => self.rng.between(0, h + 3).min(LAST_NUMBER),
            5 => *self.rng.pick(&[0, LAST_NUMBER]),
            _ => inside,
        };
        let (last, book) = match self.rng.below(10) {
            0..=2 => (if self.rng.chance(70) { inside } else { last }, self.edge_book()),
            3 => (last, self.longest_book(index)),
            _ => (last, self.exchange.book_at(index, last)),
        };
        self.snapshot_draft(index, last, &book)
    }

    /// A snapshot of 63 to 65 entries.
    pub(super) fn many_places(&mut self) {
        let index = self.any_instrument();
        let (bids, entries) = (self.rng.between(0, 63), self.rng.between(63, 65));
        let sides = [bids, entries - bids].map(|n| (0..n).map(|_| Row::some(&mut self.rng)).collect());
        let last = self.some_last();
        let message = self.snapshot_draft(index, last, &TrueBook { sides }).seal();
        self.feed(message);
    }

    /// A book of about 20 places on a side, or far more.
    fn edge_book(&mut self) -> Rc<TrueBook> {
        let held = [self.edge_side(), self.edge_side()];
        let sides = held.map(|n| (0..n).map(|_| Row::some(&mut self.rng)).collect());
        Rc::new(TrueBook { sides })
    }

    /// The book that takes the most bytes to write.
    fn longest_book(&mut self, index: usize) -> Rc<TrueBook> {
        self.exchange.set_book(index, TrueBook::longest());
        self.exchange.book_at(index, LAST_NUMBER)
    }

    /// How many places an edge book holds on a side.
    fn edge_side(&mut self) -> usize {
        *self.rng.pick(&[0, 1, 19, 20, 20, 20, 21, 21, 22, 32, 44])
    }
}
