//! The incremental stream: true messages, losses in bunches, repeats, late ones and bursts.

use super::draft::Draft;
use super::exchange::{Who, Wish};
use super::{harm, Generator};

/// How many messages are kept to come again or late.
const KEPT: usize = 60;

impl Generator {
    /// How many entries a message has: mostly few, now and then 64.
    fn some_entries(&mut self) -> usize {
        match self.rng.below(40) {
            0 => 64,
            1 => 0,
            2..=4 => self.rng.below(30),
            _ => 1 + self.rng.below(5),
        }
    }

    /// The next message of the exchange.
    pub(super) fn next_draft(&mut self) -> Draft {
        if self.rng.chance(10) {
            return self.exchange.next_other(&mut self.rng);
        }
        let entries = self.some_entries();
        self.exchange.next_x(&mut self.rng, Wish { entries, ..Wish::default() })
    }

    fn keep(&mut self, message: Vec<u8>) {
        if self.kept.len() >= KEPT {
            let i = self.rng.below(KEPT);
            self.kept.swap_remove(i);
        }
        self.kept.push(message);
    }

    /// Feeds the next true message.
    pub(super) fn next(&mut self) {
        if self.exchange.at_end() {
            return self.late();
        }
        let message = self.next_draft().seal();
        if self.rng.chance(20) {
            self.keep(message.clone());
        }
        self.feed(message);
    }

    /// Messages that never arrive, or arrive late.
    pub(super) fn lose(&mut self) {
        let bunch = if self.rng.chance(5) { 100 } else { self.rng.between(1, 6) };
        for _ in 0..bunch {
            if !self.exchange.at_end() {
                let message = self.next_draft().seal();
                self.keep(message);
            }
        }
        self.next();
    }

    /// A message again, or one that was lost, or one written by the writer.
    pub(super) fn late(&mut self) {
        if self.kept.is_empty() {
            return;
        }
        let message = self.rng.pick(&self.kept).clone();
        if self.rng.chance(10) {
            return self.late_harmed(&message);
        }
        let again = self.rng.chance(20);
        self.feed(message.clone());
        if again {
            self.feed(message);
        }
    }

    /// A message that comes late and with a fault.
    fn late_harmed(&mut self, message: &[u8]) {
        let mut draft = Draft::unseal(message);
        if self.rng.chance(50) {
            harm::to_bound(&mut self.rng, &mut draft);
        } else {
            harm::to_fields(&mut self.rng, &mut draft);
        }
        self.feed(draft.seal());
    }

    /// An X in which some instrument breaks.
    pub(super) fn wrong(&mut self) {
        if self.exchange.at_end() {
            return;
        }
        let entries = 1 + self.rng.below(8);
        let wrong = 1 + self.rng.below(3);
        let who = if self.rng.chance(50) { Who::Followed } else { Who::Any };
        let wish = Wish { entries, who, wrong, ..Wish::default() };
        let message = self.exchange.next_x(&mut self.rng, wish).seal();
        self.feed(message);
        self.state_of_waiting();
    }

    /// Fills the queue to just 256 entries, or past them.
    pub(super) fn burst(&mut self) {
        if self.marked(true).is_empty() {
            self.lose();
        }
        for _ in 0..12 {
            let held = self.channel().map_or(0, |channel| channel.queue.len());
            if self.exchange.at_end() || held >= 256 {
                break;
            }
            self.burst_message((256 - held).min(64));
        }
        self.after_burst();
    }

    /// A message with `room` entries that join the queue, now and then one too many.
    fn burst_message(&mut self, room: usize) {
        let spill = room < 64 && self.rng.chance(25);
        let entries = if spill { room + 1 } else { room };
        let wrong = usize::from(self.rng.chance(10));
        let wish = Wish { entries, who: Who::Followed, wrong, ..Wish::default() };
        let message = self.exchange.next_x(&mut self.rng, wish).seal();
        self.feed(message);
    }

    /// With a full queue: a message whose entries don't join it, a snapshot, one more entry.
    pub(super) fn after_burst(&mut self) {
        if self.rng.chance(40) && !self.exchange.at_end() {
            let message = self.exchange.next_other(&mut self.rng).seal();
            self.feed(message);
        }
        if self.rng.chance(30) {
            self.recover();
        }
        if self.rng.chance(30) && !self.exchange.at_end() {
            let wish = Wish { entries: 3, who: Who::NotFollowed, ..Wish::default() };
            let message = self.exchange.next_x(&mut self.rng, wish).seal();
            self.feed(message);
        }
        if self.rng.chance(50) && !self.exchange.at_end() {
            self.burst_message(1);
        }
        self.recover();
    }
}
