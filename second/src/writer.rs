//! The writer of snapshots.

use crate::book::{Maker, Place};
use crate::calendar::Moment;
use crate::channel::Channel;
use crate::field::{DECIMALS, ONE};
use crate::flip::{either, Flip};
use crate::frame::SOH;
use crate::instrument::Instrument;

/// What the caller gives the writer beside the instrument.
pub struct Heading<'a> {
    pub sender: &'a str,
    pub target: &'a str,
    pub k: u64,
    pub m: u64,
    pub time: Moment,
}

/// The snapshot of an instrument: 8, 9, 35, 49, 56, 34 and so on to 268, bids, offers, 10.
pub fn write(channel: &Channel, instrument: &Instrument, heading: &Heading) -> Vec<u8> {
    let book = &instrument.book;
    let mut body = Vec::new();
    put(&mut body, 35, "W");
    put(&mut body, 49, heading.sender);
    put(&mut body, 56, heading.target);
    put(&mut body, 34, heading.k);
    put(&mut body, 52, heading.time.text());
    put(&mut body, 48, instrument.id);
    put(&mut body, 22, 8);
    put(&mut body, 207, "BVMF");
    put(&mut body, 369, channel.h);
    put(&mut body, 911, heading.m);
    put(&mut body, 268, book.bids.len() + book.offers.len());
    put_side(&mut body, 0, &book.bids);
    put_side(&mut body, 1, &book.offers);
    seal(&body)
}

/// A field: tag, `=`, value, SOH.
pub fn put(bytes: &mut Vec<u8>, tag: u32, value: impl ToString) {
    bytes.extend(format!("{tag}={}", value.to_string()).bytes());
    bytes.push(SOH);
}

/// Entry: 269, 270, 271, 37 or 346, 272, 273, 290.
fn put_side(body: &mut Vec<u8>, kind: u32, side: &[Place]) {
    for (i, place) in side.iter().enumerate() {
        put(body, 269, kind);
        put(body, 270, price_text(place.price));
        put(body, 271, place.size);
        match &place.maker {
            Maker::Order(id) => put(body, 37, id),
            Maker::Orders(orders) => put(body, 346, orders),
        }
        put(body, 272, place.date.text());
        put(body, 273, place.time.text());
        put(body, 290, i + 1);
    }
}

/// Puts 8 and 9 before the body and 10 after it.
fn seal(body: &[u8]) -> Vec<u8> {
    let mut bytes = Vec::new();
    put(&mut bytes, 8, "FIX.4.4");
    put(&mut bytes, 9, body.len());
    bytes.extend(body);
    let sum: u64 = bytes.iter().map(|byte| u64::from(*byte)).sum();
    put(&mut bytes, 10, format!("{:03}", sum % 256));
    bytes
}

/// Prices have no needless zero, point or minus.
fn price_text(price: i64) -> String {
    let (units, parts) = (price.abs() / ONE, price.abs() % ONE);
    let parts = either(Flip::EighthNotWritten, parts, parts / 10 * 10);
    let minus = if price < 0 { "-" } else { "" };
    let width = either(Flip::WrittenInSeven, DECIMALS, DECIMALS - 1);
    let decimals = format!("{parts:0width$}");
    let shown = decimals.trim_end_matches('0');
    let shown = either(Flip::NeedlessZero, shown, &decimals[..shown.len().max(1)]);
    let point = if shown.is_empty() { "" } else { "." };
    format!("{minus}{units}{point}{shown}")
}
