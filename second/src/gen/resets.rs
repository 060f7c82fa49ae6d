//! J for all instruments: alone in its message and among others, while one waits and while none does,
//! where the queue is nearly full or full, with snapshots about its number; and entries without 48
//! that may not lack it, or that hold what they may not.

use super::draft::{field, Draft, DraftField};
use super::entries::Entry;
use super::exchange::{Mood, Row, Who, Wish, LAST_NUMBER};
use super::rng::Rng;
use super::{bounds, Generator};

impl Generator {
    /// A J for all, with what lies before it and behind.
    pub(super) fn reset(&mut self) {
        if self.exchange.at_end() {
            return self.late();
        }
        match self.rng.below(10) {
            0..=4 => self.reset_in_stream(),
            5 | 6 => self.reset_at_full_queue(),
            7 | 8 => self.reset_badly(),
            _ => self.reset_and_build(),
        }
    }

    /// An X with a J for all, or two, now and then with entries that break an instrument.
    pub(super) fn reset_message(&mut self, who: Who) {
        if self.exchange.at_end() {
            return;
        }
        let entries = *self.rng.pick(&[1, 1, 2, 2, 3, 3, 4, 6, 10]);
        let resets = 1 + usize::from(entries > 2 && self.rng.chance(30));
        let wrong = if self.rng.chance(25) { 1 + self.rng.below(2) } else { 0 };
        let wish = Wish { entries, who, wrong, resets, ..Wish::default() };
        let message = self.exchange.next_x(&mut self.rng, wish).seal();
        self.feed(message);
    }

    /// Whose entries stand beside a J for all.
    fn some_who(&mut self) -> Who {
        match self.rng.below(6) {
            0 => Who::NotFollowed,
            1 | 2 => Who::One(self.rng.below(self.exchange.followed)),
            3 => Who::Followed,
            _ => Who::Any,
        }
    }

    /// A J for all while one waits or none does, and snapshots as of its number, of the one before
    /// and of the one behind.
    fn reset_in_stream(&mut self) {
        match self.rng.below(10) {
            0..=3 => self.let_some_wait(),
            4..=7 => self.recover_all(),
            _ => {}
        }
        let who = self.some_who();
        self.reset_message(who);
        let number = self.exchange.number;
        for _ in 0..self.rng.below(3) {
            self.next();
        }
        for index in self.marked(true) {
            if self.rng.chance(60) {
                let last = *self.rng.pick(&[number - 1, number - 1, number, number, number + 1]);
                let message = self.snapshot_at(index, last.min(LAST_NUMBER)).seal();
                self.feed(message);
            }
        }
        if self.rng.chance(40) {
            self.state();
        }
    }

    /// The queue filled to a few entries less than 256, or to 256, and then a J for all, alone or
    /// among others, that comes to 255, to 256 or to one more.
    fn reset_at_full_queue(&mut self) {
        if self.marked(true).is_empty() {
            self.lose();
        }
        let left = self.rng.below(5);
        for _ in 0..12 {
            let held = self.channel().map_or(0, |channel| channel.queue.len());
            let room = (256 - left).saturating_sub(held);
            if self.exchange.at_end() || room == 0 {
                break;
            }
            let wish = Wish { entries: room.min(64), who: Who::Followed, ..Wish::default() };
            let message = self.exchange.next_x(&mut self.rng, wish).seal();
            self.feed(message);
        }
        if self.exchange.at_end() {
            return;
        }
        let entries = (left + self.rng.below(3)).saturating_sub(1).max(1);
        let wish = Wish { entries, who: Who::Followed, resets: 1, ..Wish::default() };
        let message = self.exchange.next_x(&mut self.rng, wish).seal();
        self.feed(message);
        self.after_burst();
    }

    /// A J for all, and then books that are built anew.
    fn reset_and_build(&mut self) {
        self.reset_message(Who::Followed);
        self.exchange.mood = Mood::Filling;
        for _ in 0..2 + self.rng.below(5) {
            self.next();
        }
        if self.rng.chance(50) {
            self.recover_all();
        }
    }

    /// An entry without 48 that may not lack it, or that holds what it may not; then mostly the
    /// message without the fault.
    fn reset_badly(&mut self) {
        let entries = 1 + self.rng.below(3);
        let who = self.some_who();
        let wish = Wish { entries, who, resets: 1, ..Wish::default() };
        let whole = self.exchange.next_x(&mut self.rng, wish);
        let mut harmed = whole.clone();
        let side = self.side_without_48();
        spoil(&mut self.rng, &mut harmed, side, self.exchange.ids[0]);
        self.feed_harmed(&whole, harmed.seal());
    }

    /// A bid or an offer that lacks 48, and 22 and 207 too or not.
    fn side_without_48(&mut self) -> Vec<DraftField> {
        let (side, action, position) = (self.rng.below(2), self.rng.between(0, 4) as u32, 1);
        let row = Row::some(&mut self.rng);
        let entry = Entry::Side { id: 1, side, action, position, row };
        let mut fields = entry.fields(&mut self.rng, self.exchange.depth);
        let untold: &[&str] = if self.rng.chance(50) { &["48"] } else { &["48", "22", "207"] };
        fields.retain(|field| !untold.contains(&field.0.as_str()));
        fields
    }
}

/// The first J without 48 of a draft: where its entry begins and ends.
fn for_all_at(draft: &Draft) -> Option<(usize, usize)> {
    let n = draft.fields.len();
    let starts: Vec<usize> = (0..n).filter(|i| draft.tag(*i) == 279).collect();
    let ends = starts.iter().skip(1).copied().chain([n]);
    starts.iter().copied().zip(ends).find(|(start, end)| {
        let entry = &draft.fields[*start..*end];
        entry.contains(&field(269, "J")) && !entry.iter().any(|field| field.0 == "48")
    })
}

/// Puts a fault into the first J for all, or a bid or offer without 48 in its place, or what it may
/// hold.
fn spoil(rng: &mut Rng, draft: &mut Draft, side: Vec<DraftField>, id: u64) {
    let Some((start, end)) = for_all_at(draft) else { return };
    let put = |rng: &mut Rng, draft: &mut Draft, tag: u32, value: Vec<u8>| {
        let value = if value.is_empty() { b"x".to_vec() } else { value };
        let place = start + 1 + rng.below(end - start);
        draft.fields.insert(place, field(tag, value));
    };
    match rng.below(15) {
        0 => put(rng, draft, 22, b"8".to_vec()),
        1 => {
            let value = bounds::bound(rng, 22);
            put(rng, draft, 22, value);
        }
        2 => put(rng, draft, 207, b"BVMF".to_vec()),
        3 => {
            let value = bounds::bound(rng, 207);
            put(rng, draft, 207, value);
        }
        4 => {
            put(rng, draft, 22, b"8".to_vec());
            put(rng, draft, 207, b"BVMF".to_vec());
        }
        5 => {
            let values = [22, 207].map(|tag| (tag, bounds::bound(rng, tag)));
            values.into_iter().for_each(|(tag, value)| put(rng, draft, tag, value));
        }
        6 | 7 => drop(draft.fields.splice(start..end, side)),
        8 => put(rng, draft, 48, id.to_string().into_bytes()),
        9 => {
            put(rng, draft, 48, id.to_string().into_bytes());
            put(rng, draft, 22, b"8".to_vec());
        }
        10 => {
            put(rng, draft, 48, b"0".to_vec());
            put(rng, draft, 22, b"8".to_vec());
        }
        11 => draft.fields[start].1 = b"5".to_vec(),
        12 => draft.fields[start].1 = bounds::bound(rng, 279),
        13 => drop(draft.fields.remove(start)),
        _ => {
            let tag = *rng.pick(&[270, 271, 37, 346, 272, 273, 290]);
            let value = bounds::bound(rng, tag);
            put(rng, draft, tag, value);
        }
    }
}
