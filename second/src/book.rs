//! Places, the sides of a book, and what an entry does to them.

use crate::calendar::{Date, TimeOfDay};
use crate::flip::{either, on, Flip};

/// The places that a side has room for.
pub const ROOM: usize = 20;

/// What a channel tells of a place: each order, or the orders at a price.
#[derive(Clone, Copy, PartialEq, Eq, Debug)]
pub enum Depth {
    Order,
    Price,
}

/// Who stands at a place: an order id (37), or a number of orders (346).
#[derive(Clone, PartialEq, Eq, Debug)]
pub enum Maker {
    Order(String),
    Orders(u64),
}

/// One place of a side; the price is in hundred-millionths.
#[derive(Clone, PartialEq, Eq, Debug)]
pub struct Place {
    pub price: i64,
    pub size: u64,
    pub maker: Maker,
    pub date: Date,
    pub time: TimeOfDay,
}

#[derive(Clone, Copy, PartialEq, Eq, Debug)]
pub enum SideName {
    Bid,
    Offer,
}

/// What a bid or offer entry does at a position, counted from 1.
#[derive(Clone, PartialEq, Eq, Debug)]
pub enum Action {
    New(usize, Place),
    Change(usize, Place),
    Delete(usize),
    DeleteThru(usize),
    DeleteFrom(usize),
}

#[derive(Clone, PartialEq, Eq, Debug)]
pub enum Step {
    Act(SideName, Action),
    /// 269 = J, empty book.
    Empty,
}

/// A bid, offer or J entry that is read.
#[derive(Clone, PartialEq, Eq, Debug)]
pub enum Entry {
    /// For one instrument.
    One { id: u64, step: Step },
    /// J without 48: every book is emptied (02, K4).
    EmptyAll,
}

impl Entry {
    /// Whether it speaks of an instrument.
    pub fn concerns(&self, id: u64) -> bool {
        match self {
            Entry::One { id: one, .. } => *one == id,
            Entry::EmptyAll => true,
        }
    }

    /// What it does to a book that it speaks of.
    pub fn step(&self) -> &Step {
        match self {
            Entry::One { step, .. } => step,
            Entry::EmptyAll => &Step::Empty,
        }
    }
}

/// Why an instrument breaks: reason 1 (place) or 2 (no room).
#[derive(Clone, Copy, PartialEq, Eq, Debug)]
pub enum Breach {
    Place,
    NoRoom,
}

impl Breach {
    pub fn reason(self) -> u64 {
        match self {
            Breach::Place => 1,
            Breach::NoRoom => 2,
        }
    }
}

#[derive(Clone, Default, PartialEq, Eq, Debug)]
pub struct Book {
    pub bids: Vec<Place>,
    pub offers: Vec<Place>,
}

impl Book {
    /// Entries act on one side; J empties both.
    pub fn take(&mut self, step: &Step) -> Result<(), Breach> {
        match step {
            Step::Act(SideName::Bid, action) => act(&mut self.bids, action),
            Step::Act(SideName::Offer, action) => act(&mut self.offers, action),
            Step::Empty => {
                self.bids.clear();
                if !on(Flip::JOneSide) {
                    self.offers.clear();
                }
                Ok(())
            }
        }
    }

    pub fn empty(&mut self) {
        *self = Book::default();
    }
}

/// All but new need p at most n.
fn act(side: &mut Vec<Place>, action: &Action) -> Result<(), Breach> {
    match action {
        Action::New(p, place) => new_at(side, *p, place),
        Action::Change(p, place) => change(side, *p, place),
        Action::Delete(p) => held(side, *p).map(|i| drop(side.remove(i))),
        Action::DeleteThru(p) => delete_thru(side, *p),
        Action::DeleteFrom(p) => delete_from(side, *p),
    }
}

/// Where place p stands in the side, if it is held.
fn held(side: &[Place], p: usize) -> Result<usize, Breach> {
    if p <= side.len() {
        Ok(p - 1)
    } else {
        Err(Breach::Place)
    }
}

/// New at p needs p at most n+1 and n below 20, and moves the rest down.
fn new_at(side: &mut Vec<Place>, p: usize, place: &Place) -> Result<(), Breach> {
    let n = side.len();
    let wrong_place = p > either(Flip::NewNotAtEnd, n + 1, n.max(1));
    let no_room = n >= either(Flip::RoomFor21, ROOM, ROOM + 1);
    if no_room && on(Flip::NoRoomFirst) {
        return Err(Breach::NoRoom);
    }
    if wrong_place {
        return Err(Breach::Place);
    }
    if no_room {
        return Err(Breach::NoRoom);
    }
    side.insert(p - 1, place.clone());
    Ok(())
}

/// Change replaces place p whole.
fn change(side: &mut [Place], p: usize, place: &Place) -> Result<(), Breach> {
    let i = held(side, p)?;
    let size = either(Flip::ChangeKeepsSize, place.size, side[i].size);
    side[i] = Place { size, ..place.clone() };
    Ok(())
}

/// Delete thru removes 1 to p.
fn delete_thru(side: &mut Vec<Place>, p: usize) -> Result<(), Breach> {
    held(side, p)?;
    side.drain(..either(Flip::ThruKeepsPlace, p, p - 1));
    Ok(())
}

/// Delete from removes p to n.
fn delete_from(side: &mut Vec<Place>, p: usize) -> Result<(), Breach> {
    let i = held(side, p)?;
    side.truncate(either(Flip::FromKeepsPlace, i, i + 1));
    Ok(())
}
