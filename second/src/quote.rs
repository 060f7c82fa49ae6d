//! The quote: place 1 of each side, with H and the heard time.

use crate::answer::*;
use crate::book::{Maker, Place};
use crate::calendar::Moment;
use crate::channel::Channel;
use crate::flip::{either, on, Flip};

/// The numbers of a quote.
pub const QUOTE_NUMBERS: usize = 17;

/// Quotes an instrument, or says 20 to 24.
pub fn quote(channel: &Channel, id: u64, now: Moment, limit_s: u64) -> Result<[u64; QUOTE_NUMBERS], u64> {
    let instrument = channel.find(id).ok_or(NOT_FOLLOWED)?;
    if channel.heard.is_none() && on(Flip::UnheardBeforeWaiting) {
        return Err(NOTHING_HEARD);
    }
    if instrument.waiting {
        return Err(WAITING);
    }
    let heard = match channel.heard {
        Some(heard) => heard,
        None if on(Flip::NothingHeardQuoted) => now,
        None => return Err(NOTHING_HEARD),
    };
    check_age(heard.age_ms(now), limit_s)?;
    let mut numbers = vec![channel.h, heard.date.number(), heard.time.number()];
    numbers.extend(side_numbers(instrument.book.bids.first()));
    numbers.extend(side_numbers(instrument.book.offers.first()));
    Ok(numbers.try_into().expect("17 numbers"))
}

/// Age below 0 is 23, age above the limit is 24.
fn check_age(age_ms: i128, limit_s: u64) -> Result<(), u64> {
    let age_ms = either(Flip::AgeSign, age_ms, age_ms.abs());
    let limit_ms = i128::from(limit_s) * 1000;
    if age_ms < 0 {
        return Err(AGE_BELOW_0);
    }
    if age_ms > limit_ms || (on(Flip::AgeAtLimit) && age_ms == limit_ms) {
        return Err(AGE_ABOVE_LIMIT);
    }
    Ok(())
}

/// Held or not, price, size, order id or number of orders, entry date and time.
fn side_numbers(place: Option<&Place>) -> [u64; 7] {
    let Some(place) = place else { return [0; 7] };
    let (first, second) = match &place.maker {
        Maker::Order(id) => (eight_bytes(id, 0), eight_bytes(id, 8)),
        Maker::Orders(orders) => (*orders, 0),
    };
    let date = place.date.number();
    let price = either(Flip::QuoteTenMillionths, place.price, place.price / 10);
    [1, price as u64, place.size, first, second, date, place.time.number()]
}

/// Eight bytes of an order id from `start`, low byte first, filled with zeros.
fn eight_bytes(id: &str, start: usize) -> u64 {
    let mut bytes = [0; 8];
    for (slot, byte) in bytes.iter_mut().zip(id.bytes().skip(start)) {
        *slot = byte;
    }
    u64::from_le_bytes(bytes)
}
