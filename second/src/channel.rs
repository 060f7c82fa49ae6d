//! The channel: numbers, queue and marks, and the snapshots that make instruments Live.

use crate::answer::*;
use crate::book::{Depth, Entry, Step, ROOM};
use crate::calendar::Moment;
use crate::flip::{either, on, Flip};
use crate::instrument::Instrument;
use crate::loops::{Loop, Turn};
use crate::message::{self, Counted, Message, Snapshot};

/// The entries that the queue has room for.
pub const QUEUE_ROOM: usize = 256;

/// A queued entry with the number of its message.
#[derive(Clone, Debug)]
pub struct Queued {
    pub number: u64,
    pub entry: Entry,
}

#[derive(Clone, Debug)]
pub struct Channel {
    pub depth: Depth,
    /// H, the last counted number.
    pub h: u64,
    /// B, the number after which the queue is complete.
    pub b: u64,
    /// The time (52) of the last counted message.
    pub heard: Option<Moment>,
    pub instruments: Vec<Instrument>,
    pub queue: Vec<Queued>,
    /// The loop of snapshots that runs, if one does.
    pub running: Option<Loop>,
}

impl Channel {
    /// H and B are 0 at opening, all instruments Waiting, and no loop runs.
    pub fn open(depth: Depth, ids: &[u64]) -> Channel {
        let instruments = ids.iter().map(|id| Instrument::opened(*id)).collect();
        Channel { depth, h: 0, b: 0, heard: None, instruments, queue: Vec::new(), running: None }
    }

    /// The answer to one message, and how many wait after it. 0, 1, 3, 4 and 10 change what they
    /// say; a W that is answered 5 to 9 takes its turn in its loop all the same.
    pub fn feed(&mut self, message: &[u8]) -> (u64, usize) {
        let answer = match message::read(message, self.depth) {
            Ok(Message::Counted(counted)) => self.count(&counted),
            Ok(Message::Snapshot(snapshot)) => {
                let turn = Turn::of(&snapshot);
                let answer = self.snapshot(snapshot);
                return self.take_turn(&turn, answer);
            }
            Err(refusal) => {
                self.h += either(Flip::RefusedCounted, 0, 1);
                self.drop_loop_if(Flip::LoopMalformedDrops);
                refusal
            }
        };
        (answer, self.waiting())
    }

    /// Drops the record under a flip; without one a loop goes on whatever lies between its W.
    fn drop_loop_if(&mut self, flip: Flip) {
        if on(flip) {
            self.running = None;
        }
    }

    /// Takes J for all out of the queue under a flip.
    fn drop_for_all_if(&mut self, flip: Flip) {
        if on(flip) {
            self.queue.retain(|queued| queued.entry != Entry::EmptyAll);
        }
    }

    /// How many instruments are Waiting.
    pub fn waiting(&self) -> usize {
        self.instruments.iter().filter(|instrument| instrument.waiting).count()
    }

    /// One bit for each instrument in the order of opening, from the lowest: 1 for Waiting.
    pub fn marks(&self) -> u64 {
        let marked = either(Flip::BoardMarksLive, true, false);
        let bit = |(i, instrument): (usize, &Instrument)| u64::from(instrument.waiting == marked) << i;
        self.instruments.iter().enumerate().map(bit).sum()
    }

    pub fn find(&self, id: u64) -> Option<&Instrument> {
        self.instruments.iter().find(|instrument| instrument.id == id)
    }

    fn find_mut(&mut self, id: u64) -> Option<&mut Instrument> {
        self.instruments.iter_mut().find(|instrument| instrument.id == id)
    }

    /// A number at most H is old; more than H+1 is a gap, and then counted as in order.
    fn count(&mut self, message: &Counted) -> u64 {
        if message.number <= either(Flip::OldAccepted, self.h, self.h.saturating_sub(1)) {
            self.heard = either(Flip::OldHeard, self.heard, Some(message.time));
            self.drop_loop_if(Flip::LoopOldDrops);
            return OLD;
        }
        let gap = message.number > self.h + 1;
        if gap {
            self.clear_at_gap(message);
            self.drop_loop_if(Flip::LoopGapDrops);
        }
        self.drop_loop_if(Flip::LoopCountedDrops);
        let let_go = self.count_in_order(message);
        if gap {
            self.drop_for_all_if(Flip::AllGapNotQueued);
        }
        match (gap, let_go) {
            (true, _) => GAP,
            (false, true) => LET_GO,
            (false, false) => DONE,
        }
    }

    /// Gap: all Waiting with empty books, reasons kept, queue emptied, B the number less one.
    fn clear_at_gap(&mut self, message: &Counted) {
        for instrument in &mut self.instruments {
            let named = message.entries.iter().any(|entry| entry.concerns(instrument.id));
            if either(Flip::GapClearsNamedOnly, true, named) {
                instrument.clear_at_gap();
            }
        }
        self.queue.clear();
        self.b = either(Flip::GapBIsNumber, message.number - 1, message.number);
    }

    /// In order: H and the heard time are taken, entries are queued, Live instruments get theirs.
    /// Says whether the queue was let go.
    fn count_in_order(&mut self, message: &Counted) -> bool {
        self.h = message.number;
        self.heard = Some(message.time);
        let waited = self.waiting() > 0;
        let let_go = waited && self.join_queue(message);
        let broke = self.give_to_live(message, let_go);
        self.settle(broke && either(Flip::BreakMovesB, !waited, true));
        let_go
    }

    /// If any is Waiting, entries for followed instruments join the queue, and so do those for
    /// all; if that would make more than 256, the queue is emptied and B becomes H.
    fn join_queue(&mut self, message: &Counted) -> bool {
        let entries = in_turn(&message.entries, Flip::AllQueuedFirst, Flip::AllQueuedLast);
        let joining: Vec<Queued> = entries
            .into_iter()
            .filter(|entry| self.joins(entry, message))
            .flat_map(|entry| self.as_queued(entry))
            .map(|entry| Queued { number: message.number, entry })
            .collect();
        let most = either(Flip::Queue257, either(Flip::Queue255, QUEUE_ROOM, 255), 257);
        let counted = either(Flip::QueueUnfollowed, self.counted(&joining), message.entries.len());
        let let_go = self.counted(&self.queue) + counted > most;
        if let_go {
            self.queue.clear();
            self.b = either(Flip::LetGoKeepsB, self.h, self.b);
            self.drop_loop_if(Flip::LoopLetGoDrops);
        }
        if !let_go || on(Flip::LetGoKeepsMessage) {
            self.queue.extend(joining);
        }
        let_go
    }

    /// Bid, offer and J entries for followed instruments join, Live ones' too, and J for all
    /// whatever else its message holds.
    fn joins(&self, entry: &Entry, message: &Counted) -> bool {
        let Entry::One { id, step } = entry else {
            let of_followed =
                |entry: &Entry| matches!(entry, Entry::One { id, .. } if self.find(*id).is_some());
            let beside = message.entries.iter().any(of_followed);
            return either(Flip::AllQueuedBeside, !on(Flip::AllNotQueued), beside);
        };
        let Some(instrument) = self.find(*id) else { return false };
        let any_mark = either(Flip::QueueWaitingOnly, true, instrument.waiting);
        let any_kind = either(Flip::JNotQueued, true, *step != Step::Empty);
        any_mark && any_kind
    }

    /// What stands in the queue for an entry that joins it: the entry, one for all too.
    fn as_queued(&self, entry: &Entry) -> Vec<Entry> {
        if *entry == Entry::EmptyAll && on(Flip::AllQueuedEach) {
            return self.instruments.iter().map(|it| Entry::One { id: it.id, step: Step::Empty }).collect();
        }
        vec![entry.clone()]
    }

    /// How many entries count against 256: each of them, and one for all once.
    fn counted(&self, entries: &[Queued]) -> usize {
        let for_all = entries.iter().filter(|queued| queued.entry == Entry::EmptyAll).count();
        let each = entries.len() + for_all * (self.instruments.len() - 1);
        let counted = either(Flip::AllCountsEach, entries.len(), each);
        either(Flip::AllCountsNone, counted, entries.len() - for_all)
    }

    /// Live instruments get their entries in order; the other entries of one that breaks are
    /// passed over. Says whether one breaks.
    fn give_to_live(&mut self, message: &Counted, let_go: bool) -> bool {
        let before: Vec<u64> = self.instruments.iter().filter(|i| !i.waiting).map(|i| i.id).collect();
        let waited = before.len() < self.instruments.len();
        let (mut broke, mut emptied) = (false, false);
        for entry in in_turn(&message.entries, Flip::AllGivenFirst, Flip::AllGivenLast) {
            let Entry::One { id, step } = entry else {
                let passed = (waited && on(Flip::AllLeftToQueue))
                    || (let_go && on(Flip::AllLetGoLeaves))
                    || (emptied && on(Flip::AllSecondPassed));
                if !passed {
                    self.empty_live(message, &before);
                }
                if broke && !waited && on(Flip::AllQueuedAtBreak) {
                    self.queue.push(Queued { number: message.number, entry: Entry::EmptyAll });
                }
                emptied = true;
                continue;
            };
            let Some(instrument) = self.find_mut(*id) else { continue };
            let passed = emptied && on(Flip::AllEndsMessage);
            if either(Flip::BreakGoesOn, !instrument.waiting, before.contains(id)) && !passed {
                if let Err(breach) = instrument.book.take(step) {
                    instrument.break_off(breach);
                    broke = true;
                }
            }
        }
        if broke {
            self.drop_loop_if(Flip::LoopBreakDrops);
        }
        broke
    }

    /// J for all empties the book of every instrument that is Live at that point of the message;
    /// no mark, reason or B changes by it. `before` are those that were Live before the message.
    fn empty_live(&mut self, message: &Counted, before: &[u64]) {
        let is_named =
            |id: u64| message.entries.iter().any(|it| matches!(it, Entry::One { id: one, .. } if *one == id));
        for (i, instrument) in self.instruments.iter_mut().enumerate() {
            instrument.reason = either(Flip::AllClearsReasons, instrument.reason, 0);
            if instrument.waiting {
                let broken = before.contains(&instrument.id);
                let revived = on(Flip::AllMakesLive) || (broken && on(Flip::AllRevivesBroken));
                instrument.waiting = !revived;
                continue;
            }
            let named = is_named(instrument.id);
            let passed = (i > 0 && on(Flip::AllFirstOnly))
                || (!named && on(Flip::AllNamedOnly))
                || (named && on(Flip::AllUnnamedOnly));
            if passed {
                continue;
            }
            instrument.book.bids.clear();
            if !on(Flip::AllOneSide) {
                instrument.book.offers.clear();
            }
            instrument.waiting = on(Flip::AllMarksWaiting);
        }
        if on(Flip::AllLetsGo) {
            self.queue.clear();
        }
        if on(Flip::AllLetsGo) || on(Flip::AllMovesB) {
            self.b = self.h;
        }
        self.drop_loop_if(Flip::LoopForAllDrops);
    }

    /// Whenever none waits at the end of a call, and whenever none waited before a message in
    /// which one breaks, the queue is empty and B equals H.
    pub(crate) fn settle(&mut self, broke_with_none_waiting: bool) {
        let broke = either(Flip::BreakKeepsB, broke_with_none_waiting, false);
        if self.waiting() == 0 || broke {
            if !(broke && on(Flip::AllQueuedAtBreak)) {
                self.queue.clear();
            }
            self.b = either(Flip::BLeftBehind, self.h, self.b);
        }
    }

    /// A snapshot is taken for a Waiting instrument if S lies in B to H and each side has at
    /// most 20; 34 is not compared with H.
    fn snapshot(&mut self, snapshot: Snapshot) -> u64 {
        let Some(instrument) = self.find(snapshot.id) else { return SNAPSHOT_NOT_FOLLOWED };
        if snapshot.number <= self.h && on(Flip::SnapshotOld) {
            return OLD;
        }
        let live = !instrument.waiting && !on(Flip::LiveTakenAgain);
        let refused = self.refuse_snapshot(&snapshot);
        match (live, refused) {
            (true, Some(refusal)) if on(Flip::LiveToldLast) => refusal,
            (true, _) => ALREADY_LIVE,
            (false, Some(refusal)) => refusal,
            (false, None) => self.take_snapshot(snapshot),
        }
    }

    /// S below B, S above H, or a side over 20.
    fn refuse_snapshot(&self, snapshot: &Snapshot) -> Option<u64> {
        let most = either(Flip::SideOf21Taken, ROOM, ROOM + 1);
        let over = snapshot.book.bids.len() > most || snapshot.book.offers.len() > most;
        if over && on(Flip::OverToldFirst) {
            return Some(SIDE_OVER_20);
        }
        if snapshot.last < either(Flip::BelowBTaken, self.b, self.b.saturating_sub(1)) {
            return Some(BELOW_B);
        }
        if snapshot.last > either(Flip::AboveHTaken, self.h, self.h + 1) {
            return Some(ABOVE_H);
        }
        over.then_some(SIDE_OVER_20)
    }

    /// The book is set, queued entries with numbers above S are applied, and it is Live.
    fn take_snapshot(&mut self, snapshot: Snapshot) -> u64 {
        let first = either(Flip::QueuedAtSAgain, snapshot.last + 1, snapshot.last);
        let id = snapshot.id;
        let replay = self.queued_from(first, id);
        self.heard = either(Flip::SnapshotHeard, self.heard, Some(snapshot.time));
        self.drop_for_all_if(Flip::AllReplayedOnce);
        let instrument = self.find_mut(id).expect("followed");
        instrument.set_and_replay(snapshot.book, &replay)
    }

    /// The queued entries that speak of an instrument with numbers from `first` on.
    pub(crate) fn queued_from(&self, first: u64, id: u64) -> Vec<Entry> {
        let reached = |queued: &&Queued| match queued.entry {
            Entry::One { .. } => queued.number >= first,
            Entry::EmptyAll => self.meets_all(queued.number, first, id),
        };
        let after = self.queue.iter().filter(reached).filter(|queued| queued.entry.concerns(id));
        let mut entries: Vec<Entry> = after.map(|queued| queued.entry.clone()).collect();
        if on(Flip::AllForgives) {
            let last = entries.iter().rposition(|entry| *entry == Entry::EmptyAll);
            entries.drain(..last.unwrap_or(0));
        }
        entries
    }

    /// Whether the replay of an instrument from `first` on meets a J for all with this number:
    /// every instrument's does, if the number lies there.
    fn meets_all(&self, number: u64, first: u64, id: u64) -> bool {
        let reached = number + either(Flip::AllReplayedAtS, 0, 1) >= first || on(Flip::AllReplayedAlways);
        let of_first = self.instruments[0].id == id;
        reached && either(Flip::AllReplayedFirst, !on(Flip::AllNotReplayed), of_first)
    }
}

/// The entries in the order written, but for flips that put those for all first or last.
fn in_turn(entries: &[Entry], all_first: Flip, all_last: Flip) -> Vec<&Entry> {
    let mut ordered: Vec<&Entry> = entries.iter().collect();
    ordered.sort_by_key(|entry| {
        let for_all = **entry == Entry::EmptyAll;
        (!for_all && on(all_first)) || (for_all && on(all_last))
    });
    ordered
}
