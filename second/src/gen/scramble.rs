//! Messages put together at random from the fields that belong in them: most needed ones stand,
//! some that aren't needed do too, in any order, with values that are good or at a bound.

use super::draft::{field, Draft, DraftField};
use super::{bounds, values, Generator};

/// How many times in a hundred a needed field stands, and one that isn't needed.
const NEEDED: u64 = 96;
const UNNEEDED: u64 = 25;
/// How many times in a hundred each of 48, 22 and 207 stands in a J for all.
const UNTOLD: u64 = 8;
/// How many times in a hundred a value is good.
const GOOD: u64 = 96;

impl Generator {
    /// An X, a W or another message at random.
    pub(super) fn scramble(&mut self) {
        if self.exchange.at_end() {
            return self.late();
        }
        let draft = match self.rng.below(5) {
            0..=2 => self.scrambled_x(),
            3 => self.scrambled_w(),
            _ => self.scrambled_other(),
        };
        self.feed(draft.seal());
    }

    /// A value of a tag: mostly a good one.
    fn some_field(&mut self, tag: u32, good: &str) -> DraftField {
        if self.rng.chance(GOOD) {
            return field(tag, good);
        }
        let value = if self.rng.chance(70) {
            bounds::bound(&mut self.rng, tag)
        } else {
            values::noise(&mut self.rng)
        };
        field(tag, if value.is_empty() { b"0".to_vec() } else { value })
    }

    /// A value for a tag of an entry or of a head.
    fn good_value(&mut self, tag: u32) -> String {
        match tag {
            48 => self.rng.pick(&self.exchange.ids).to_string(),
            271 => values::size(&mut self.rng),
            346 => values::orders(&mut self.rng),
            _ => String::from_utf8_lossy(&values::good(&mut self.rng, tag)).into_owned(),
        }
    }

    /// Fields of these tags, each with how many times in a hundred it stands, in any order.
    fn some_fields(&mut self, tags: &[(u32, u64)]) -> Vec<DraftField> {
        let mut fields = Vec::new();
        for (tag, percent) in tags {
            if self.rng.chance(*percent) {
                let good = self.good_value(*tag);
                fields.push(self.some_field(*tag, &good));
            }
        }
        if self.rng.chance(60) {
            self.rng.shuffle(&mut fields);
        }
        fields
    }

    /// Now and then a field more, of any tag, at any place behind the first.
    fn stray(&mut self, draft: &mut Draft) {
        if self.rng.chance(12) {
            let tag = *self.rng.pick(&values::NAMED_TAGS);
            let good = self.good_value(tag);
            let stray = self.some_field(tag, &good);
            let place = 1 + self.rng.below(draft.fields.len());
            draft.fields.insert(place, stray);
        }
    }

    /// 34 and 52 of the next message.
    fn some_head(&mut self) -> Vec<DraftField> {
        let (number, time) = self.exchange.next_head(&mut self.rng);
        let mut fields = vec![self.some_field(34, &number.to_string()), self.some_field(52, &time)];
        if self.rng.chance(4) {
            let i = self.rng.below(2);
            fields.remove(i);
        }
        fields
    }

    /// 268 with this count, or now and then another.
    fn count(&mut self, count: usize) -> DraftField {
        let count = if self.rng.chance(3) { count + 1 } else { count };
        self.some_field(268, &count.to_string())
    }

    fn scrambled_x(&mut self) -> Draft {
        let mut draft = Draft::new("X");
        draft.fields.extend(self.some_head());
        let entries = self.rng.below(4);
        let count = self.count(entries);
        draft.fields.push(count);
        for _ in 0..entries {
            let entry = self.scrambled_entry();
            draft.fields.extend(entry);
        }
        self.stray(&mut draft);
        draft
    }

    /// An entry of X: 279 first, and what its kind and action need.
    fn scrambled_entry(&mut self) -> Vec<DraftField> {
        let kind: &str = self.rng.pick::<&str>(&["0", "0", "1", "1", "J", "2", "00"]);
        let action: &str = self.rng.pick::<&str>(&["0", "1", "2", "3", "4"]);
        let side = kind == "0" || kind == "1";
        let place = if side && action < "2" { NEEDED } else { UNNEEDED };
        let by = |depth: u64| if self.exchange.depth == depth { place } else { UNNEEDED };
        let for_all = kind == "J" && self.rng.chance(40);
        let told = match (side || kind == "J", for_all) {
            (_, true) => UNTOLD,
            (true, false) => NEEDED,
            (false, false) => UNNEEDED,
        };
        let exchange = if for_all { UNTOLD } else { 40 };
        let position = if side { NEEDED } else { UNNEEDED };
        let tags = [
            (48, told),
            (22, told),
            (207, exchange),
            (290, position),
            (270, place),
            (271, place),
            (37, by(0)),
            (346, by(1)),
            (272, place),
            (273, place),
        ];
        let mut fields = vec![self.some_field(279, action), self.some_field(269, kind)];
        fields.extend(self.some_fields(&tags));
        if self.rng.chance(40) {
            self.rng.shuffle(&mut fields[1..]);
        }
        if self.rng.chance(3) {
            let i = self.rng.below(fields.len());
            fields.swap(0, i);
        }
        fields
    }

    fn scrambled_w(&mut self) -> Draft {
        let mut draft = Draft::new("W");
        let mut head = self.some_head();
        head.extend(self.some_fields(&[(48, NEEDED), (22, NEEDED), (207, 40), (911, NEEDED)]));
        let (h, b) = self.h_and_b();
        let last = self.rng.between(b.min(h), h).to_string();
        head.push(self.some_field(369, &last));
        self.rng.shuffle(&mut head);
        draft.fields.extend(head);
        let entries = self.rng.below(4);
        let count = self.count(entries);
        draft.fields.push(count);
        let mut held = [0, 0];
        for _ in 0..entries {
            let entry = self.scrambled_place(&mut held);
            draft.fields.extend(entry);
        }
        self.stray(&mut draft);
        draft
    }

    /// An entry of W: 269 first, and what its kind needs.
    fn scrambled_place(&mut self, held: &mut [usize; 2]) -> Vec<DraftField> {
        let kind: &str = self.rng.pick::<&str>(&["0", "0", "1", "1", "J", "2"]);
        let side = kind == "0" || kind == "1";
        let place = if side { NEEDED } else { UNNEEDED };
        let by = |depth: u64| if self.exchange.depth == depth { place } else { UNNEEDED };
        let tags = [(270, place), (271, place), (37, by(0)), (346, by(1)), (272, place), (273, place)];
        let mut fields = self.some_fields(&tags);
        if side {
            let n = &mut held[usize::from(kind == "1")];
            *n += 1;
            let position = n.to_string();
            fields.push(self.some_field(290, &position));
        }
        self.rng.shuffle(&mut fields);
        fields.insert(0, self.some_field(269, kind));
        fields
    }

    /// A type that carries a number and a time, with named tags anywhere.
    fn scrambled_other(&mut self) -> Draft {
        let kind: &str = self.rng.pick::<&str>(&["0", "f", "y", "B"]);
        let mut fields = self.some_head();
        fields.extend(self.some_fields(&[(48, 30), (268, 30), (279, 30), (911, 30), (272, 30)]));
        if self.rng.chance(50) {
            self.rng.shuffle(&mut fields);
        }
        let mut draft = Draft::new(kind);
        draft.fields.extend(fields);
        self.stray(&mut draft);
        draft
    }
}
