//! Loops of snapshots (document 02, K1): the record of the W messages that have come in a row, and
//! what a whole loop does for the instruments that it did not name.

use std::collections::BTreeSet;

use crate::answer::{ALREADY_LIVE, REPLAY_BROKE, SIDE_OVER_20, SNAPSHOT_NOT_FOLLOWED, TAKEN};
use crate::book::{Book, Entry};
use crate::calendar::Moment;
use crate::channel::Channel;
use crate::field::LARGEST_NUMBER;
use crate::flip::{either, on, Flip};
use crate::message::Snapshot;

/// A well-formed W as its loop sees it.
pub struct Turn {
    /// 34.
    pub number: u64,
    /// 911.
    pub reports: u64,
    /// 369.
    pub last: u64,
    /// 48.
    pub id: u64,
    pub time: Moment,
}

impl Turn {
    pub fn of(snapshot: &Snapshot) -> Turn {
        let Snapshot { number, time, id, last, reports, .. } = *snapshot;
        Turn { number, reports, last, id, time }
    }
}

/// The loop record: W messages with 34 = 1, 2, .. that have come in a row with one 911 throughout.
#[derive(Clone, PartialEq, Eq, Debug)]
pub struct Loop {
    /// 911.
    pub reports: u64,
    /// How many have come, which is 34 of the last.
    pub come: u64,
    /// The lowest 369 so far, whether its instrument is followed or not.
    pub lowest: u64,
    /// The instruments (48) of those that have come, whatever they were answered.
    pub named: BTreeSet<u64>,
}

impl Loop {
    /// The loop that a W with 34 = 1 begins.
    fn begun(turn: &Turn, answer: u64) -> Loop {
        let reports = turn.reports;
        let mut begun = Loop { reports, come: 0, lowest: LARGEST_NUMBER, named: BTreeSet::new() };
        begun.add(turn, answer);
        begun
    }

    /// The loop that such a W begins in the middle of another, of which it keeps nothing.
    fn begun_anew(self, turn: &Turn, answer: u64) -> Loop {
        let mut begun = Loop::begun(turn, answer);
        if on(Flip::LoopAnewKeepsNames) {
            begun.named.extend(self.named);
        }
        begun.lowest = either(Flip::LoopAnewKeepsLowest, begun.lowest, begun.lowest.min(self.lowest));
        begun
    }

    /// Whether a W is the next of this loop.
    fn goes_on(&self, turn: &Turn) -> bool {
        let again = turn.number == self.come && on(Flip::LoopRepeatGoesOn);
        let later = self.come < turn.number && turn.number <= self.reports && on(Flip::LoopMissedGoesOn);
        let in_turn = turn.number == self.come + 1 || again || later;
        in_turn && (turn.reports == self.reports || on(Flip::LoopOther911GoesOn))
    }

    /// The W takes its turn. What it was answered plays no part.
    fn add(&mut self, turn: &Turn, answer: u64) {
        self.come = turn.number;
        let names = either(Flip::LoopTakenNames, true, answer == TAKEN)
            && either(Flip::LoopClosingNamesNone, true, !self.is_whole());
        if names {
            self.named.insert(turn.id);
        }
        let lowers = either(Flip::LoopLowestFollowed, true, answer != SNAPSHOT_NOT_FOLLOWED)
            && either(Flip::LoopLowestTaken, true, answer == TAKEN)
            && either(Flip::LoopLowestNotClosing, true, !self.is_whole() || self.reports == 1);
        if lowers {
            self.lowest = self.lowered(turn.last);
        }
    }

    /// The lowest 369 with one more.
    fn lowered(&self, last: u64) -> u64 {
        let first = self.come == 1;
        match () {
            () if on(Flip::LoopLowestFirst) && !first => self.lowest,
            () if on(Flip::LoopLowestLast) => last,
            () if on(Flip::LoopHighest) && !first => self.lowest.max(last),
            () => self.lowest.min(last),
        }
    }

    /// Whether 911 W have come.
    pub fn is_whole(&self) -> bool {
        self.come == self.reports && !(self.reports == 1 && on(Flip::LoopOf1NotWhole))
    }
}

/// The record after a well-formed W: it goes on with the loop; any other drops the record, and
/// begins a new one if its 34 is 1.
pub fn after(record: Option<Loop>, turn: &Turn, answer: u64) -> Option<Loop> {
    match record {
        Some(mut running) if running.goes_on(turn) => {
            running.add(turn, answer);
            Some(running)
        }
        Some(running) if turn.number > 1 && on(Flip::LoopOtherLeaves) => Some(running),
        Some(running) if turn.number > turn.reports && on(Flip::LoopAbove911Leaves) => Some(running),
        Some(_) if on(Flip::LoopBegunOnceOnly) => None,
        Some(running) => begins(turn).then(|| running.begun_anew(turn, answer)),
        None => begins(turn).then(|| Loop::begun(turn, answer)),
    }
}

/// A loop begins with 34 = 1.
fn begins(turn: &Turn) -> bool {
    turn.number == 1 || (turn.number <= turn.reports && on(Flip::LoopBegunAnywhere))
}

/// Whether a flip keeps a W with this answer out of the row; without one, all that were answered 4
/// to 10 are in it.
fn kept_out(answer: u64) -> bool {
    let refused = (SNAPSHOT_NOT_FOLLOWED..=SIDE_OVER_20).contains(&answer);
    (refused && on(Flip::LoopRefusedOut))
        || (answer == SNAPSHOT_NOT_FOLLOWED && on(Flip::LoopUnfollowedOut))
        || (answer == ALREADY_LIVE && on(Flip::LoopLiveOut))
        || (answer == REPLAY_BROKE && on(Flip::LoopBrokenOut))
}

impl Channel {
    /// A W that was answered 4 to 10 takes its turn in the row, and a whole loop is ended. Gives
    /// the answer, which stays the one that the W itself earned, and how many wait after it.
    pub(crate) fn take_turn(&mut self, turn: &Turn, answer: u64) -> (u64, usize) {
        let waited = self.waiting();
        let mut told = answer;
        let mut ended = false;
        if !kept_out(answer) {
            let ran = self.running.take();
            match after(ran.clone(), turn, answer) {
                Some(whole) if whole.is_whole() => {
                    self.running = ran.filter(|_| whole.reports == 1 && on(Flip::LoopOf1Leaves));
                    told = self.end_loop(&whole, turn, answer);
                    ended = true;
                }
                running => self.running = running,
            }
        }
        if !(ended && on(Flip::LoopNoneWaitsLeftOut)) {
            self.settle(false);
        }
        (told, either(Flip::LoopCountBefore, self.waiting(), waited))
    }

    /// Each followed, Waiting instrument that the loop did not name takes an empty snapshot whose
    /// 369 is the lowest in the loop, if that lies in B to H. Queue and B stand still until all are
    /// through.
    fn end_loop(&mut self, whole: &Loop, turn: &Turn, answer: u64) -> u64 {
        if on(Flip::LoopEndedAgain) && whole.reports > 1 {
            self.running = Some(Loop { come: whole.come - 1, ..whole.clone() });
        }
        if answer == TAKEN && on(Flip::LoopBMoves) {
            self.b = self.h;
        }
        let mut taken = false;
        if self.in_reach(whole.lowest) && !is_passed(answer) {
            taken = self.take_unnamed(whole);
        }
        self.heard = either(Flip::LoopHeard, self.heard, Some(turn.time));
        if taken {
            either(Flip::LoopAnswered4, answer, TAKEN)
        } else {
            answer
        }
    }

    /// Whether S lies in B to H.
    fn in_reach(&self, last: u64) -> bool {
        let low = either(Flip::LoopBelowB, self.b, self.b.saturating_sub(1));
        let high = either(Flip::LoopAboveH, self.h, self.h + 1);
        let at_bound = (last == self.b && on(Flip::LoopNotAtB)) || (last == self.h && on(Flip::LoopNotAtH));
        (low..=high).contains(&last) && !at_bound
    }

    /// The empty snapshots, in the order of opening; says whether one was taken.
    fn take_unnamed(&mut self, whole: &Loop) -> bool {
        let mut taken = false;
        for i in 0..self.instruments.len() {
            let instrument = &self.instruments[i];
            let unnamed = !whole.named.contains(&instrument.id) || on(Flip::LoopNamedToo);
            let waits = instrument.waiting || on(Flip::LoopLiveToo);
            if !(unnamed && waits) {
                continue;
            }
            let outcome = self.take_empty(i, whole.lowest);
            taken = taken || outcome == TAKEN;
            let stops = on(Flip::LoopFirstOnly) || (outcome == REPLAY_BROKE && on(Flip::LoopBreakEnds));
            if stops {
                break;
            }
        }
        taken
    }

    /// An empty snapshot as of the message numbered `last`, with its replay.
    fn take_empty(&mut self, i: usize, last: u64) -> u64 {
        let replay = self.replay_of_empty(self.instruments[i].id, last);
        let instrument = &mut self.instruments[i];
        let old_reason = instrument.reason;
        let outcome = instrument.set_and_replay(Book::default(), &replay);
        let kept = match outcome {
            TAKEN => on(Flip::LoopReasonKept),
            _ => on(Flip::LoopBreakKeepsReason),
        };
        if kept {
            instrument.reason = old_reason;
        }
        if outcome == REPLAY_BROKE && on(Flip::LoopBreakGoesLive) {
            instrument.waiting = false;
        }
        outcome
    }

    /// The queued entries that an empty snapshot is followed by.
    fn replay_of_empty(&self, id: u64, last: u64) -> Vec<Entry> {
        if on(Flip::LoopReplayLeftOut) {
            return Vec::new();
        }
        let first = either(Flip::LoopReplayAtS, last + 1, last);
        let mut replay = self.queued_from(first, id);
        replay.retain(|entry| !(*entry == Entry::EmptyAll && on(Flip::LoopForAllLeftOut)));
        replay
    }
}

/// Whether a flip passes the step over after this answer of the closing W.
fn is_passed(answer: u64) -> bool {
    match answer {
        TAKEN => false,
        REPLAY_BROKE => on(Flip::LoopBrokenEndsNone),
        _ => on(Flip::LoopRefusedEndsNone),
    }
}
