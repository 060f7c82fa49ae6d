//! A followed instrument: its mark, its reason and its book.

use crate::answer::{REPLAY_BROKE, TAKEN};
use crate::book::{Book, Breach, Entry};
use crate::flip::{either, on, Flip};

#[derive(Clone, Debug)]
pub struct Instrument {
    pub id: u64,
    pub waiting: bool,
    /// 0, 1 (place) or 2 (no room).
    pub reason: u64,
    pub book: Book,
}

impl Instrument {
    /// At opening all instruments are Waiting, with reason 0.
    pub fn opened(id: u64) -> Instrument {
        Instrument { id, waiting: true, reason: 0, book: Book::default() }
    }

    /// A gap leaves it Waiting with an empty book, its reason kept.
    pub fn clear_at_gap(&mut self) {
        self.waiting = true;
        self.book.empty();
        self.reason = either(Flip::GapClearsReasons, self.reason, 0);
    }

    /// A breach breaks the instrument: both sides emptied, mark Waiting, the reason held.
    pub fn break_off(&mut self, breach: Breach) {
        self.book.empty();
        self.waiting = true;
        self.reason = breach.reason();
    }

    /// A snapshot sets the book, then `replay` is applied, and it is Live with reason 0; if that
    /// breaks, it stays Waiting with the reason.
    pub fn set_and_replay(&mut self, book: Book, replay: &[Entry]) -> u64 {
        let old_reason = self.reason;
        self.book = book;
        self.waiting = false;
        self.reason = either(Flip::ReasonKept, 0, old_reason);
        for entry in replay {
            match self.book.take(entry.step()) {
                Err(breach) if !on(Flip::ReplayGoesOn) => {
                    self.break_off(breach);
                    self.reason = either(Flip::ReplayOldReason, self.reason, old_reason);
                    return REPLAY_BROKE;
                }
                _ => {}
            }
        }
        TAKEN
    }
}
