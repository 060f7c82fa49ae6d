//! A model of the exchange: the true book of every instrument, its numbers and its clock.
//! It knows positions and texts only; it shares no code with the keeper.

use std::collections::VecDeque;
use std::rc::Rc;

use super::clock;
use super::draft::Draft;
use super::entries::{self, Entry};
use super::rng::Rng;
use super::values;
use crate::field::DECIMALS;

/// The last number that a message can have.
pub const LAST_NUMBER: u64 = 4_294_967_295;
/// Of so many entries one is J for all.
const RESETS: usize = 300;
/// How many past numbers the true books are kept for.
const PAST: usize = 700;

/// A place of a true book, as the texts of its fields.
#[derive(Clone, Debug)]
pub struct Row {
    pub price: String,
    pub size: String,
    pub order: String,
    pub orders: String,
    pub date: String,
    pub time: String,
}

impl Row {
    pub fn some(rng: &mut Rng) -> Row {
        Row {
            price: values::price(rng),
            size: values::size(rng),
            order: values::name(rng),
            orders: values::orders(rng),
            date: values::date(rng),
            time: values::time(rng),
        }
    }

    /// The longest values of every field.
    pub fn longest() -> Row {
        Row {
            price: format!("-999999999.{}", "9".repeat(DECIMALS)),
            size: String::from("999999999999"),
            order: String::from("ABCDEFGHIJKLMNOP"),
            orders: String::from("65535"),
            date: String::from("99991231"),
            time: String::from("23:59:60.999"),
        }
    }
}

/// Bids and offers of one instrument.
#[derive(Clone, Default, Debug)]
pub struct TrueBook {
    pub sides: [Vec<Row>; 2],
}

impl TrueBook {
    /// The book that takes the most bytes to write.
    pub fn longest() -> TrueBook {
        let side = vec![Row::longest(); 20];
        TrueBook { sides: [side.clone(), side] }
    }
}

/// How the books move for a while.
#[derive(Clone, Copy, PartialEq)]
pub enum Mood {
    Filling,
    Mixed,
    Emptying,
}

/// Whose entries a message should hold. Wrong ones are of followed instruments always, and now and
/// then a J for all stands among the others, with `NotFollowed` only where it is wished for.
#[derive(Clone, Copy, PartialEq, Default)]
pub enum Who {
    #[default]
    Any,
    /// Only entries that join the queue: bids, offers and J of followed instruments, and J for all.
    Followed,
    /// Only entries of instruments that aren't followed: they don't join the queue, but a J for all
    /// beside them does.
    NotFollowed,
    /// Only entries of this instrument.
    One(usize),
}

/// What a message should hold.
#[derive(Clone, Copy, Default)]
pub struct Wish {
    pub entries: usize,
    pub who: Who,
    /// Only entries that need few values: J, deletes and passed-over ones.
    pub sparse: bool,
    /// How many entries ask for a place that isn't there or for room that isn't there.
    pub wrong: usize,
    /// How many J for all are put among the entries; two may fall on one place.
    pub resets: usize,
}

pub struct Exchange {
    pub depth: u64,
    /// The instruments, those that the keeper follows first.
    pub ids: Vec<u64>,
    pub followed: usize,
    pub number: u64,
    pub clock_ms: i64,
    pub mood: Mood,
    books: Vec<Rc<TrueBook>>,
    past: VecDeque<(u64, Vec<Rc<TrueBook>>)>,
}

impl Exchange {
    pub fn new(depth: u64, ids: Vec<u64>, followed: usize, number: u64, clock_ms: i64) -> Exchange {
        let books = ids.iter().map(|_| Rc::default()).collect();
        let mood = Mood::Filling;
        let mut exchange =
            Exchange { depth, ids, followed, number, clock_ms, mood, books, past: VecDeque::new() };
        exchange.remember();
        exchange
    }

    /// Keeps the true books as they stand after the present number.
    fn remember(&mut self) {
        self.past.push_back((self.number, self.books.clone()));
        if self.past.len() > PAST {
            self.past.pop_front();
        }
    }

    /// The true book after `number`, or the nearest one that is kept.
    pub fn book_at(&self, index: usize, number: u64) -> Rc<TrueBook> {
        let kept = self.past.iter().rev().find(|(at, _)| *at <= number);
        kept.or(self.past.front()).expect("books").1[index].clone()
    }

    /// Follows the keeper where it has counted a number that the exchange hasn't sent.
    pub fn catch_up(&mut self, h: u64) {
        if h > self.number {
            self.number = h;
            self.remember();
        }
    }

    pub fn at_end(&self) -> bool {
        self.number >= LAST_NUMBER
    }

    /// The next number and a later time.
    fn tick(&mut self, rng: &mut Rng) {
        self.number += 1;
        self.clock_ms += match rng.below(20) {
            0 => 0,
            1 => 60_000 - self.clock_ms % 60_000,
            2 => rng.between(0, 3 * clock::DAY_MS as u64) as i64,
            _ => rng.between(1, 900) as i64,
        };
    }

    /// The next number and its time, for a message that is put together elsewhere.
    pub fn next_head(&mut self, rng: &mut Rng) -> (u64, String) {
        self.tick(rng);
        self.remember();
        (self.number, clock::some_text(rng, self.clock_ms))
    }

    /// A message of this type with the present number and time.
    fn headed(&self, rng: &mut Rng, kind: &str) -> Draft {
        let time = clock::some_text(rng, self.clock_ms);
        let mut draft = Draft::new(kind);
        draft.fields.extend(entries::head(rng, self.number, &time));
        draft
    }

    /// A message of type 0, f, y or B.
    pub fn next_other(&mut self, rng: &mut Rng) -> Draft {
        self.tick(rng);
        let kind: &str = rng.pick::<&str>(&["0", "f", "y", "B"]);
        let mut draft = self.headed(rng, kind);
        if rng.chance(25) {
            draft.fields.extend(entries::unread_group(rng));
        }
        entries::sprinkle(rng, &mut draft.fields, 1);
        self.remember();
        draft
    }

    /// An X with true entries, and wrong ones where they are wished for.
    pub fn next_x(&mut self, rng: &mut Rng, wish: Wish) -> Draft {
        self.tick(rng);
        if rng.chance(2) {
            self.mood = *rng.pick(&[Mood::Filling, Mood::Filling, Mood::Mixed, Mood::Emptying]);
        }
        let mut draft = self.headed(rng, "X");
        entries::sprinkle(rng, &mut draft.fields, 1);
        entries::open_group(rng, &mut draft.fields, wish.entries);
        let some = |rng: &mut Rng, n: usize| (0..n).map(|_| rng.below(wish.entries.max(1))).collect();
        let wrong: Vec<usize> = some(rng, wish.wrong);
        let resets: Vec<usize> = some(rng, wish.resets);
        for i in 0..wish.entries {
            let entry = match i {
                i if resets.contains(&i) => self.reset(),
                i if wrong.contains(&i) => self.wrong_entry(rng),
                _ => self.true_entry(rng, wish),
            };
            draft.fields.extend(entry.fields(rng, self.depth));
        }
        self.remember();
        draft
    }

    /// J for all: every true book is emptied.
    fn reset(&mut self) -> Entry {
        self.books.fill(Rc::default());
        Entry::EmptyAll
    }

    /// An X that empties an instrument's book, or all, and then builds this one, from place 1 on or
    /// from the last place up.
    pub fn next_book(&mut self, rng: &mut Rng, index: usize, book: TrueBook) -> Draft {
        self.tick(rng);
        let (id, upwards) = (self.ids[index], rng.chance(50));
        let first = if rng.chance(12) { self.reset() } else { Entry::Empty { id } };
        let mut all = vec![first];
        for (side, rows) in book.sides.iter().enumerate() {
            let new = |position, row: &Row| Entry::Side { id, side, action: 0, position, row: row.clone() };
            if upwards {
                all.extend(rows.iter().rev().map(|row| new(1, row)));
            } else {
                all.extend((1..).zip(rows).map(|(position, row)| new(position, row)));
            }
        }
        let mut draft = self.headed(rng, "X");
        entries::open_group(rng, &mut draft.fields, all.len());
        draft.fields.extend(all.iter().flat_map(|entry| entry.fields(rng, self.depth)));
        self.books[index] = Rc::new(book);
        self.remember();
        draft
    }

    /// An X with an entry for an instrument that fits no book.
    pub fn next_unfitting(&mut self, rng: &mut Rng, index: usize) -> Draft {
        self.tick(rng);
        let (id, action) = (self.ids[index], rng.between(0, 4) as u32);
        let entry = Entry::Side { id, side: rng.below(2), action, position: 65_535, row: Row::some(rng) };
        let mut draft = self.headed(rng, "X");
        entries::open_group(rng, &mut draft.fields, 1);
        draft.fields.extend(entry.fields(rng, self.depth));
        self.remember();
        draft
    }

    /// An instrument: mostly one of the followed ones.
    fn some_instrument(&self, rng: &mut Rng, who: Who) -> usize {
        let others = self.ids.len() - self.followed;
        match who {
            Who::NotFollowed => self.followed + rng.below(others),
            Who::One(index) => index,
            Who::Any if rng.chance(20) => rng.below(self.ids.len()),
            _ => rng.below(self.followed),
        }
    }

    /// An entry that the true books bear, and that is applied to them.
    fn true_entry(&mut self, rng: &mut Rng, wish: Wish) -> Entry {
        if wish.who != Who::NotFollowed && rng.below(RESETS) == 0 {
            return self.reset();
        }
        let index = self.some_instrument(rng, wish.who);
        let id = self.ids[index];
        if rng.chance(if wish.sparse { 35 } else { 3 }) {
            *Rc::make_mut(&mut self.books[index]) = TrueBook::default();
            return Entry::Empty { id };
        }
        if wish.who != Who::Followed && rng.chance(if wish.sparse { 35 } else { 9 }) {
            return Entry::PassedOver { id };
        }
        let side = rng.below(2);
        let held = self.books[index].sides[side].len();
        let (action, position) = self.true_action(rng, held, wish.sparse);
        let row = Row::some(rng);
        let book = Rc::make_mut(&mut self.books[index]);
        apply(&mut book.sides[side], action, position, &row);
        Entry::Side { id, side, action, position, row }
    }

    /// An action and a position that a side with `held` places bears.
    fn true_action(&self, rng: &mut Rng, held: usize, sparse: bool) -> (u32, usize) {
        if held == 0 {
            return (0, 1);
        }
        if sparse {
            return (rng.between(2, 4) as u32, 1 + rng.below(held));
        }
        let new = match self.mood {
            Mood::Filling => 80,
            Mood::Mixed => 45,
            Mood::Emptying => 20,
        };
        if held < 20 && rng.chance(new) {
            let at_end = rng.chance(30);
            return (0, if at_end { held + 1 } else { 1 + rng.below(held + 1) });
        }
        let position = 1 + rng.below(held);
        let keep = if self.mood == Mood::Filling { 30 } else { 0 };
        match rng.below(40 + keep) {
            0 | 1 => (3, position.min(1 + rng.below(held))),
            2 | 3 => (4, position.max(1 + rng.below(held))),
            4 => (*rng.pick(&[1, 2, 3, 4]), held),
            5..=20 => (2, position),
            _ => (1, position),
        }
    }

    /// A side of a followed instrument: any, or a full one where there is one.
    fn wrong_side(&self, rng: &mut Rng) -> (usize, usize) {
        let any = (self.some_instrument(rng, Who::Followed), rng.below(2));
        let all = (0..self.followed).flat_map(|i| [(i, 0), (i, 1)]);
        let full: Vec<_> = all.filter(|at| self.books[at.0].sides[at.1].len() == 20).collect();
        if full.is_empty() || rng.chance(50) {
            any
        } else {
            *rng.pick(&full)
        }
    }

    /// An entry at a place that isn't there, or new where there is no room.
    fn wrong_entry(&mut self, rng: &mut Rng) -> Entry {
        let (index, side) = self.wrong_side(rng);
        let held = self.books[index].sides[side].len();
        let (action, position) = match rng.below(6) {
            0..=2 if held == 20 => (0, *rng.pick(&[1, 10, 20, 21, 22, 23])),
            0 | 1 => (0, held + 2),
            2 => (rng.between(1, 4) as u32, held + 1),
            3 => (rng.between(0, 4) as u32, 65_535),
            4 => (rng.between(1, 4) as u32, held + 1 + rng.below(3)),
            _ => (0, if held == 20 { 21 } else { held + 2 }),
        };
        Entry::Side { id: self.ids[index], side, action, position, row: Row::some(rng) }
    }

    /// Sets a true book, as a later snapshot will tell.
    pub fn set_book(&mut self, index: usize, book: TrueBook) {
        self.books[index] = Rc::new(book);
        if let Some((_, books)) = self.past.back_mut() {
            *books = self.books.clone();
        }
    }
}

/// Applies an action to a side of a true book.
fn apply(side: &mut Vec<Row>, action: u32, position: usize, row: &Row) {
    let i = position - 1;
    match action {
        0 => side.insert(i, row.clone()),
        1 => side[i] = row.clone(),
        2 => {
            side.remove(i);
        }
        3 => {
            side.drain(..=i);
        }
        _ => side.truncate(i),
    }
}
