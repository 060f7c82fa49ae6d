//! Loops of snapshots: whole ones of every length, ones that are broken or begun anew, with the
//! stream going on between their messages. Some followed instruments are left out of them, with
//! queued entries that an empty book bears, or does not.

use std::rc::Rc;

use super::draft::{field, seal_with, Draft};
use super::exchange::{Row, TrueBook, Who, Wish, LAST_NUMBER};
use super::{harm, Generator};
use crate::answer::*;
use crate::keeper::STORE_NUMBERS;
use crate::layout::AT_REPORTS;
use crate::script::Call;

/// How many W a loop has, where it is to be whole.
const LENGTHS: [u64; 16] = [1, 1, 1, 2, 2, 2, 2, 3, 3, 3, 4, 5, 6, 8, 16, 17];
/// 911 of loops of which only a few W are sent.
const ENDLESS: [u64; 5] = [9, 1_000, 65_536, LAST_NUMBER - 1, LAST_NUMBER];

/// How the lowest 369 of a loop is to lie to B and H.
#[derive(Clone, Copy, PartialEq)]
enum Low {
    BelowB,
    AtB,
    Between,
    AtH,
    AboveH,
}

/// What happens before a W of a loop.
#[derive(Clone, Copy, PartialEq)]
enum Fault {
    /// The W is missed.
    Missed,
    /// The one before comes again.
    Again,
    /// One comes again that is not the first nor the one before.
    Earlier,
    /// It carries another 911.
    Other911,
    /// One with 34 above 911 comes.
    Above911,
    /// The loop begins anew.
    Anew,
    /// A loop of 1 comes.
    AnewOf1,
    /// The store is opened anew.
    Opened,
}

/// A loop in the making.
struct Plan {
    reports: u64,
    /// How many of them are sent.
    sent: u64,
    low: Low,
    /// The W that carries the lowest 369.
    low_turn: u64,
    /// Followed instruments that no W names.
    left_out: Vec<usize>,
    /// A Waiting instrument for the closing W, and the answer that it is to be given.
    closer: Option<usize>,
    wish: u64,
    fault: Option<(u64, Fault)>,
    /// How many times in a hundred something lies between two W.
    between: u64,
}

impl Generator {
    /// A loop of snapshots with what lies before, between and behind.
    pub(super) fn snapshot_loop(&mut self) {
        self.let_some_wait();
        let mut plan = self.some_plan();
        if self.rng.chance(85) {
            for index in plan.left_out.clone() {
                self.prepare(index);
            }
        }
        let last = self.send_loop(&mut plan);
        if self.rng.chance(20) {
            // The closing W once more.
            self.feed(last);
        }
        self.after_loop(&plan);
    }

    /// Mostly sees to it that some instrument waits, with entries in the queue.
    pub(super) fn let_some_wait(&mut self) {
        if self.exchange.at_end() {
            return;
        }
        if self.marked(true).is_empty() {
            match self.rng.below(10) {
                0..=5 => self.lose(),
                6 | 7 => self.wrong(),
                _ => {}
            }
        }
        for _ in 0..self.rng.below(5).saturating_sub(1) {
            self.next();
        }
    }

    fn some_plan(&mut self) -> Plan {
        let mut waiting = self.marked(true);
        self.rng.shuffle(&mut waiting);
        let spare = waiting.len() > 1 || self.rng.chance(30);
        let closer = if spare { waiting.pop() } else { None };
        let kept = if self.rng.chance(60) { waiting.len() } else { self.rng.below(waiting.len() + 1) };
        waiting.truncate(kept);
        let endless = self.rng.chance(6);
        let reports = *self.rng.pick(if endless { &ENDLESS[..] } else { &LENGTHS[..] });
        let sent = if endless { self.rng.between(1, 4) } else { reports };
        let fault = self.rng.chance(45).then(|| (self.rng.between(2, sent.max(2)), self.some_fault()));
        Plan {
            reports,
            sent,
            low: *self.rng.pick(&[
                Low::BelowB,
                Low::AtB,
                Low::AtB,
                Low::Between,
                Low::AtH,
                Low::AtH,
                Low::AboveH,
            ]),
            low_turn: if self.rng.chance(40) { sent } else { self.rng.between(1, sent) },
            left_out: waiting,
            closer,
            wish: self.rng.between(TAKEN, REPLAY_BROKE),
            fault,
            between: *self.rng.pick(&[0, 10, 25, 50]),
        }
    }

    fn some_fault(&mut self) -> Fault {
        use Fault::*;
        if self.rng.chance(4) {
            return Opened;
        }
        *self.rng.pick(&[Missed, Again, Earlier, Other911, Above911, Anew, Anew, AnewOf1])
    }

    /// Entries in the queue for an instrument that is left out: ones that an empty book bears, or
    /// one too many, or those that are there.
    fn prepare(&mut self, index: usize) {
        if self.exchange.at_end() {
            return;
        }
        match self.rng.below(9) {
            0..=2 => self.queue_book(index, [0, 0]),
            7 => self.reset_message(Who::One(index)),
            8 => {
                let held = [self.rng.below(4), self.rng.below(4)];
                self.queue_book(index, held);
                self.reset_message(Who::One(index));
            }
            3 => {
                let held = [self.rng.below(4), self.rng.below(4)];
                self.queue_book(index, held);
            }
            4 => {
                let held = *self.rng.pick(&[[21, 0], [0, 21], [3, 22]]);
                self.queue_book(index, held);
                self.exchange.set_book(index, TrueBook::default());
            }
            _ => {}
        }
        if self.rng.chance(30) {
            self.next();
        }
    }

    /// An X that empties an instrument's book and puts so many bids and offers there.
    fn queue_book(&mut self, index: usize, held: [usize; 2]) {
        let sides = held.map(|n| (0..n).map(|_| Row::some(&mut self.rng)).collect());
        let message = self.exchange.next_book(&mut self.rng, index, TrueBook { sides }).seal();
        self.feed(message);
    }

    /// Sends the W of a loop; gives the last.
    fn send_loop(&mut self, plan: &mut Plan) -> Vec<u8> {
        let mut message = Vec::new();
        let mut turn = 1;
        while turn <= plan.sent {
            if turn > 1 && self.rng.chance(plan.between) {
                self.between(plan, turn);
            }
            let fault = plan.fault.filter(|(at, _)| *at == turn).map(|(_, fault)| fault);
            if fault.is_some() {
                plan.fault = None;
            }
            let reports = match fault {
                Some(Fault::Other911) => self.another(plan.reports),
                _ => plan.reports,
            };
            match fault {
                Some(Fault::Missed) => turn += 1,
                Some(Fault::Anew) => {
                    plan.left_out.extend(self.named(true));
                    turn = 1;
                }
                Some(fault) => self.disturb(plan, fault, turn, &message),
                None => {}
            }
            message = self.turn_draft(plan, turn, reports).seal();
            self.feed(message.clone());
            turn += 1;
        }
        message
    }

    /// Another 911.
    fn another(&mut self, reports: u64) -> u64 {
        if reports > 1 && (reports == LAST_NUMBER || self.rng.chance(50)) {
            reports - 1
        } else {
            reports + 1
        }
    }

    /// What comes before a W besides.
    fn disturb(&mut self, plan: &mut Plan, fault: Fault, turn: u64, before: &[u8]) {
        match fault {
            Fault::Earlier if turn > 3 => {
                let number = self.rng.between(2, turn - 2);
                let message = self.turn_draft(plan, number, plan.reports).seal();
                self.feed(message);
            }
            Fault::Again | Fault::Earlier => drop(self.feed(before.to_vec())),
            Fault::Above911 => {
                let number = if self.rng.chance(70) { plan.reports + 1 } else { LAST_NUMBER };
                let message = self.turn_draft(plan, number.min(LAST_NUMBER), plan.reports).seal();
                self.feed(message);
            }
            Fault::AnewOf1 => {
                let message = self.turn_draft(plan, 1, 1).seal();
                self.feed(message);
            }
            Fault::Opened => {
                self.reopen();
                (plan.left_out, plan.closer) = (Vec::new(), None);
            }
            _ => {}
        }
    }

    /// Something between two W of a loop.
    fn between(&mut self, plan: &Plan, turn: u64) {
        match self.rng.below(20) {
            0 | 1 if !self.exchange.at_end() => {
                let message = self.exchange.next_other(&mut self.rng).seal();
                self.feed(message);
            }
            2 | 3 => self.wrong(),
            4..=6 | 13 => self.refused(plan, turn),
            7 | 8 => self.late(),
            9 if self.rng.chance(50) => self.lose(),
            10 if self.rng.chance(40) => self.downpour(),
            11 => self.quote(),
            12 => self.state(),
            14 | 15 => self.break_named(),
            _ => self.next(),
        }
    }

    /// The followed instruments that the running loop named, the Waiting or the Live ones.
    fn named(&self, waiting: bool) -> Vec<usize> {
        let running = self.channel().and_then(|channel| channel.running.as_ref());
        let named = |i: &usize| running.is_some_and(|it| it.named.contains(&self.exchange.ids[*i]));
        self.marked(waiting).into_iter().filter(named).collect()
    }

    /// One that the running loop named, and that is Live, breaks.
    fn break_named(&mut self) {
        let named = self.named(false);
        if !named.is_empty() {
            let index = *self.rng.pick(&named);
            self.queue_unfitting(index);
        }
    }

    /// Entries until the queue is let go.
    fn downpour(&mut self) {
        for _ in 0..6 {
            if self.exchange.at_end() || self.marked(true).is_empty() {
                break;
            }
            let wish = Wish { entries: 64, who: Who::Followed, sparse: true, ..Wish::default() };
            let message = self.exchange.next_x(&mut self.rng, wish).seal();
            if self.feed(message) == LET_GO {
                break;
            }
        }
    }

    /// The W that is due, refused by 11, 12 or 14, or of another type (13).
    fn refused(&mut self, plan: &Plan, turn: u64) {
        let mut draft = self.turn_draft(plan, turn, plan.reports);
        let message = match self.rng.below(6) {
            0 => harm::seal_badly(&mut self.rng, &draft),
            1 => {
                let body = draft.body();
                seal_with(&body, (body.len() + 1).to_string().as_bytes(), None)
            }
            2 => {
                let mut message = draft.seal();
                let at = message.len() - 2;
                message[at] = if message[at] == b'0' { b'1' } else { b'0' };
                message
            }
            3 => {
                draft.fields[0].1 = b"w".to_vec();
                draft.seal()
            }
            4 => {
                draft.fields.push(field(369, "0"));
                draft.seal()
            }
            _ => {
                harm::to_bound(&mut self.rng, &mut draft);
                draft.seal()
            }
        };
        self.feed(message);
    }

    /// The W numbered `turn` of a loop.
    fn turn_draft(&mut self, plan: &Plan, turn: u64, reports: u64) -> Draft {
        let least = self.least(plan.low);
        let closing = turn == plan.reports;
        let last = if turn == plan.low_turn { least } else { self.not_below(least) };
        let (index, last) = if closing { self.closing(plan, last) } else { self.not_closing(plan, last) };
        let over = if closing { plan.wish == SIDE_OVER_20 } else { self.rng.chance(3) };
        let book = if over { self.book_over_20() } else { self.exchange.book_at(index, last) };
        self.numbered_snapshot(index, last, &book, turn, reports)
    }

    /// The lowest 369 that is wished for, by H and B as they stand.
    fn least(&mut self, low: Low) -> u64 {
        let (h, b) = self.h_and_b();
        match low {
            Low::BelowB => b.saturating_sub(1),
            Low::Between if b + 1 < h => self.rng.between(b + 1, h - 1),
            Low::AtB | Low::Between => b,
            Low::AtH => h,
            Low::AboveH => (h + 1).min(LAST_NUMBER),
        }
    }

    /// A 369 that is not below this one: mostly one that is taken.
    fn not_below(&mut self, least: u64) -> u64 {
        let (h, _) = self.h_and_b();
        match self.rng.below(8) {
            0 => (least.max(h) + 1).min(LAST_NUMBER),
            1..=3 => least.max(h),
            _ => self.rng.between(least, least.max(h)),
        }
    }

    /// The instrument and the 369 of a W that does not close its loop; now and then its replay is
    /// made to break.
    fn not_closing(&mut self, plan: &Plan, last: u64) -> (usize, u64) {
        let index = self.some_named(plan);
        if self.rng.chance(4) && self.marked(true).contains(&index) {
            self.queue_unfitting(index);
        }
        (index, last)
    }

    /// An instrument for a W that does not close its loop: none that is left out, and the closer
    /// seldom.
    fn some_named(&mut self, plan: &Plan) -> usize {
        let seldom = if self.rng.chance(92) { plan.closer } else { None };
        let free = |i: &usize| !plan.left_out.contains(i) && seldom != Some(*i);
        let followed: Vec<usize> = (0..self.exchange.followed).filter(free).collect();
        if followed.is_empty() || self.rng.chance(30) {
            self.not_followed()
        } else {
            *self.rng.pick(&followed)
        }
    }

    fn not_followed(&mut self) -> usize {
        self.exchange.followed + self.rng.below(self.exchange.ids.len() - self.exchange.followed)
    }

    /// The instrument and the 369 of the closing W, by the answer that is wished for.
    fn closing(&mut self, plan: &Plan, last: u64) -> (usize, u64) {
        let live: Vec<usize> =
            self.marked(false).into_iter().filter(|i| !plan.left_out.contains(i)).collect();
        let (h, b) = self.h_and_b();
        match (plan.wish, plan.closer) {
            (ALREADY_LIVE, _) if !live.is_empty() => (*self.rng.pick(&live), last),
            (SNAPSHOT_NOT_FOLLOWED | ALREADY_LIVE, _) | (_, None) => (self.not_followed(), last),
            (BELOW_B, Some(closer)) => (closer, b.saturating_sub(1)),
            (ABOVE_H, Some(closer)) => (closer, (h + 1).min(LAST_NUMBER)),
            (REPLAY_BROKE, Some(closer)) => {
                self.queue_unfitting(closer);
                (closer, last.min(h))
            }
            (_, Some(closer)) => (closer, last),
        }
    }

    /// An X with an entry for an instrument that fits no book.
    fn queue_unfitting(&mut self, index: usize) {
        if !self.exchange.at_end() {
            let message = self.exchange.next_unfitting(&mut self.rng, index).seal();
            self.feed(message);
        }
    }

    /// A book with over 20 places on a side.
    fn book_over_20(&mut self) -> Rc<TrueBook> {
        let held = *self.rng.pick(&[[21, 0], [0, 21], [20, 22], [21, 21]]);
        Rc::new(TrueBook { sides: held.map(|n| (0..n).map(|_| Row::some(&mut self.rng)).collect()) })
    }

    /// Questions about what the loop left out, and about the board.
    fn after_loop(&mut self, plan: &Plan) {
        for index in &plan.left_out {
            if self.rng.chance(40) {
                let id = self.exchange.ids[*index];
                self.call(Call::State { store_n: STORE_NUMBERS, id, room: 4 });
            }
        }
        match self.rng.below(6) {
            0 | 1 => self.board(),
            2 => self.quote(),
            3 => self.next(),
            _ => {}
        }
    }

    /// A W on the store with another loop record, which the W goes on with or ends, or just does
    /// not: loops of any length.
    pub(super) fn feed_to_changed_loop(&mut self) {
        let (h, b) = self.h_and_b();
        let reports = *self.rng.pick(&[2, 3, 16, 65_536, LAST_NUMBER - 1, LAST_NUMBER, LAST_NUMBER]);
        let come = *self.rng.pick(&[1, reports - 1, reports - 1, reports - 1, (reports - 2).max(1)]);
        let lowest = *self.rng.pick(&[b, b, h, b.saturating_sub(1), h + 1, 0, LAST_NUMBER]);
        let all = (1 << self.exchange.followed) - 1;
        let named = if self.rng.chance(30) { 0 } else { self.rng.between(0, all) };
        let number = *self.rng.pick(&[come + 1, come + 1, come + 1, come, come + 2]);
        let reports_of_w = if self.rng.chance(85) { reports } else { self.another(reports) };
        let index = self.rng.below(self.exchange.ids.len());
        let last = *self.rng.pick(&[b, h, h, LAST_NUMBER]);
        let book = self.exchange.book_at(index, last);
        let draft = self.numbered_snapshot(index, last, &book, number.min(LAST_NUMBER), reports_of_w);
        let record = [reports, come, lowest.min(LAST_NUMBER), named];
        let changes = (AT_REPORTS as u64..).zip(record).collect();
        let call = Box::new(Call::Feed { store_n: STORE_NUMBERS, message: draft.seal() });
        self.call(Call::Damage { changes, call });
    }
}
