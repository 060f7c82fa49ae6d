//! The eight calls on a store, with the checks of their arguments (17, then 18) before all others.

use crate::answer::*;
use crate::book::Depth;
use crate::calendar::Moment;
use crate::channel::Channel;
use crate::field::{self, LARGEST_ID};
use crate::flip::{either, on, Flip};
use crate::layout;
use crate::lot::{self, Lot, LOT_NUMBERS};
use crate::quote::{self, QUOTE_NUMBERS};
use crate::writer::{self, Heading};

/// The numbers that a lent store must have.
pub const STORE_NUMBERS: u64 = 7_168;
/// The bytes of the shortest writing, and of the longest.
const SHORTEST_WRITING: u64 = 104;
pub const LONGEST_WRITING: u64 = 4_307;
/// The numbers of a state.
pub const STATE_NUMBERS: usize = 4;
/// The numbers of a summary of the board.
pub const BOARD_NUMBERS: usize = 5;

/// The arguments of a writing.
pub struct Writing<'a> {
    pub id: u64,
    pub sender: &'a [u8],
    pub target: &'a [u8],
    pub k: u64,
    pub m: u64,
    pub time: &'a [u8],
}

/// What a lent store holds: an opened channel, or nothing sound.
#[derive(Clone, Default)]
pub struct Keeper {
    pub channel: Option<Channel>,
    /// The number that fills a store which was never opened.
    pub fill: u64,
}

impl Keeper {
    /// The keeper of a store's numbers.
    pub fn of_words(words: &[u64]) -> Keeper {
        Keeper { channel: layout::read(words), fill: 0 }
    }

    /// The store's numbers.
    pub fn words(&self) -> Vec<u64> {
        match &self.channel {
            Some(channel) => layout::words(channel),
            None => vec![self.fill; layout::NUMBERS],
        }
    }

    /// Opens with a depth kind and 1 to 16 distinct SecurityIDs; the old store isn't read.
    pub fn open(&mut self, store_n: u64, depth: u64, ids: &[u64]) -> u64 {
        let long = is_long(store_n);
        if !long && !on(Flip::ArgumentsFirst) {
            return STORE;
        }
        let depth = match depth {
            0 => Depth::Order,
            1 => Depth::Price,
            2 if on(Flip::DepthTo2) => Depth::Price,
            _ => return ARGUMENT,
        };
        let repeats = (1..ids.len()).any(|i| ids[..i].contains(&ids[i])) && !on(Flip::OpenRepeats);
        let in_range = ids.iter().all(|id| is_security(*id));
        let most = either(Flip::OpenSeventeen, 16, 17);
        if !(1..=most).contains(&ids.len()) || repeats || !in_range {
            return ARGUMENT;
        }
        if !long {
            return STORE;
        }
        let before = self.channel.take().filter(|_| on(Flip::LoopOpeningLeaves));
        let mut opened = Channel::open(depth, ids);
        opened.running = before.and_then(|channel| channel.running);
        self.channel = Some(opened);
        DONE
    }

    /// The answer to a message and how many wait after it (0 with 17).
    pub fn feed(&mut self, store_n: u64, message: &[u8]) -> (u64, u64) {
        match &mut self.channel {
            Some(channel) if is_long(store_n) => {
                let (answer, waiting) = channel.feed(message);
                (answer, waiting as u64)
            }
            _ => (STORE, 0),
        }
    }

    /// A quote of 17 numbers, or a refusal.
    pub fn quote(
        &self,
        store_n: u64,
        id: u64,
        now: &[u8],
        limit_s: u64,
        room: u64,
    ) -> Result<[u64; QUOTE_NUMBERS], u64> {
        let channel = self.sound(store_n)?;
        let now = quote_arguments(id, now, limit_s)?;
        if room < QUOTE_NUMBERS as u64 - either(Flip::QuoteRoom16, 0, 1) {
            return Err(ARGUMENT);
        }
        quote::quote(channel, id, now, limit_s)
    }

    /// What a lot brings or costs, 5 numbers; or a refusal: 17, 18, 20 to 24, 18 for the quantity, 35.
    pub fn lot(&self, store_n: u64, lot: &Lot, room: u64) -> Result<[u64; LOT_NUMBERS], u64> {
        let channel = self.sound(store_n)?;
        let now = quote_arguments(lot.id, lot.now, lot.limit_s)?;
        if room < LOT_NUMBERS as u64 - either(Flip::LotRoom4, 0, 1) {
            let refused = quote::quote(channel, lot.id, now, lot.limit_s).err();
            return Err(refused.filter(|_| on(Flip::LotRoomLast)).unwrap_or(ARGUMENT));
        }
        lot::lot(channel, lot, now)
    }

    /// A written snapshot, or a refusal: 17, 18, 20, 21, 25.
    pub fn write(&self, store_n: u64, writing: &Writing, room: u64) -> Result<Vec<u8>, u64> {
        let channel = self.sound(store_n)?;
        let sender = field::name(writing.sender).ok_or(ARGUMENT)?;
        let target = field::name(writing.target).ok_or(ARGUMENT)?;
        let time = Moment::read(writing.time).ok_or(ARGUMENT)?;
        let (k, m) = (writing.k, writing.m);
        let in_order = k <= m || (on(Flip::KAboveM) && k <= 16);
        if !is_security(writing.id) || k < 1 || !in_order || m > either(Flip::TurnsTo17, 16, 17) {
            return Err(ARGUMENT);
        }
        let instrument = channel.find(writing.id).ok_or(NOT_FOLLOWED)?;
        if instrument.waiting {
            let short = on(Flip::ShortBeforeWaiting) && room < SHORTEST_WRITING;
            return Err(if short { OUTPUT_SHORT } else { WAITING });
        }
        let heading = Heading { sender: &sender, target: &target, k, m, time };
        let bytes = writer::write(channel, instrument, &heading);
        let needed = bytes.len() as u64 + either(Flip::RoomExact, 0, 1);
        // Before K6 each of the 40 prices was a byte shorter.
        let over = on(Flip::LongestAsBefore) && needed > LONGEST_WRITING - 40;
        if needed > room || over {
            return Err(OUTPUT_SHORT);
        }
        Ok(bytes)
    }

    /// Waiting or not, reason, bids held, offers held; or 17, 18, 20.
    pub fn state(&self, store_n: u64, id: u64, room: u64) -> Result<[u64; STATE_NUMBERS], u64> {
        let channel = self.sound(store_n)?;
        if !is_security(id) || room < STATE_NUMBERS as u64 {
            return Err(ARGUMENT);
        }
        let instrument = channel.find(id).ok_or(NOT_FOLLOWED)?;
        let (bids, offers) = (instrument.book.bids.len(), instrument.book.offers.len());
        Ok([u64::from(instrument.waiting), instrument.reason, bids as u64, offers as u64])
    }

    /// H, the heard date and time (0 and 0 while H is 0), B, the Waiting marks; or 17, 18.
    pub fn board(&self, store_n: u64, room: u64) -> Result<[u64; BOARD_NUMBERS], u64> {
        let channel = self.sound(store_n)?;
        if room < BOARD_NUMBERS as u64 - either(Flip::BoardRoom4, 0, 1) {
            return Err(ARGUMENT);
        }
        let unheard = either(Flip::BoardUnheardDated, 0, 101);
        let (date, time) =
            channel.heard.map_or((unheard, 0), |heard| (heard.date.number(), heard.time.number()));
        let h = either(Flip::BoardBForH, channel.h, channel.b);
        Ok([h, date, time, channel.b, channel.marks()])
    }

    /// The opened channel, or 17.
    fn sound(&self, store_n: u64) -> Result<&Channel, u64> {
        let channel = self.channel.as_ref().ok_or(STORE)?;
        if !is_long(store_n) {
            return Err(STORE);
        }
        Ok(channel)
    }
}

/// A store of at least 7,168 numbers.
fn is_long(store_n: u64) -> bool {
    store_n >= either(Flip::Store7167, STORE_NUMBERS, STORE_NUMBERS - 1)
}

/// A SecurityID argument: at least 1, at most 18 digits.
fn is_security(id: u64) -> bool {
    (1..=LARGEST_ID).contains(&id)
}

/// Now, where the arguments of a quote are in their ranges.
fn quote_arguments(id: u64, now: &[u8], limit_s: u64) -> Result<Moment, u64> {
    let longest = either(Flip::LimitPastEnd, 86_400, 86_401);
    let good = is_security(id) && limit_s <= longest;
    Moment::read(now).filter(|_| good).ok_or(ARGUMENT)
}
