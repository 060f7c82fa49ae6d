//! Lots: what selling a quantity down the bids brings, and what buying it up the offers costs
//! (document 02, K11).

use crate::answer::{ARGUMENT, SUM_OVER};
use crate::book::{Book, Place};
use crate::calendar::Moment;
use crate::channel::Channel;
use crate::flip::{either, on, Flip};
use crate::quote;

/// The numbers of a lot: H, the heard date and time, the sum, the quantity left.
pub const LOT_NUMBERS: usize = 5;
/// The units of the largest lot.
pub const LARGEST_LOT: u64 = 999_999_999;

/// Selling goes down the bids, buying up the offers.
#[derive(Clone, Copy, PartialEq, Eq, Debug)]
pub enum Way {
    Sell,
    Buy,
}

impl Way {
    /// The call's name.
    pub fn name(self) -> &'static str {
        match self {
            Way::Sell => "sell",
            Way::Buy => "buy",
        }
    }

    /// The side that a lot is taken from.
    pub fn side(self, book: &Book) -> &[Place] {
        match (self, on(Flip::LotOtherSide)) {
            (Way::Sell, false) | (Way::Buy, true) => &book.bids,
            (Way::Buy, false) | (Way::Sell, true) => &book.offers,
        }
    }
}

/// The arguments of a lot.
pub struct Lot<'a> {
    pub way: Way,
    pub id: u64,
    pub quantity: u64,
    pub now: &'a [u8],
    pub limit_s: u64,
}

/// The sum and what is left of a lot, with the number and time of the quote that it rests on; or
/// 20 to 24 as the quote says, then 18 for the quantity, then 35.
pub fn lot(channel: &Channel, lot: &Lot, now: Moment) -> Result<[u64; LOT_NUMBERS], u64> {
    let least = either(Flip::LotOfNone, 1, 0);
    let in_range = (least..=either(Flip::LotPastEnd, LARGEST_LOT, LARGEST_LOT + 1)).contains(&lot.quantity);
    if !in_range && on(Flip::LotQuantityFirst) {
        return Err(ARGUMENT);
    }
    let quoted = quote::quote(channel, lot.id, now, lot.limit_s);
    let quote = quoted.map_err(|refusal| either(Flip::LotRefusals18, refusal, ARGUMENT))?;
    if !in_range {
        return Err(ARGUMENT);
    }
    let book = &channel.find(lot.id).expect("quoted").book;
    let (sum, left) = sum_and_left(lot.way.side(book), lot.quantity)?;
    let (date, time) =
        either(Flip::LotDatedNow, (quote[1], quote[2]), (now.date.number(), now.time.number()));
    Ok([quote[0], date, time, sum as u64, left])
}

/// The sum for a quantity taken from a side, and what is left of it; or 35 where the sum after some
/// place, from place 1 on, does not fit a signed 64-bit number.
///
/// A price is under 10^17 hundred-millionths and a lot under 10^9 units, so every sum is under
/// 10^26, and `i128`, which goes beyond 10^38, holds it exactly.
fn sum_and_left(side: &[Place], quantity: u64) -> Result<(i64, u64), u64> {
    let side = &side[either(Flip::LotPlaceSkipped, 0, 1.min(side.len()))..];
    let (places, quantity) = (side.len(), i128::from(quantity));
    let first = either(Flip::LotLastSumOnly, 1, places);
    let sums_fit = (first..=places).all(|n| fits(sum_after(side, n, quantity, on(Flip::LotWholeTested))));
    let refused = !sums_fit || (on(Flip::LotProductsAsked) && !products_fit(side, quantity));
    if refused && !on(Flip::LotSumWraps) {
        return Err(SUM_OVER);
    }
    let sum = sum_after(side, places, quantity, on(Flip::LotLastWhole));
    let left = quantity - covered(side, places, quantity);
    let none_left = on(Flip::LotNoneLeft) || (on(Flip::LotEmptyLeavesNone) && side.is_empty());
    Ok((sum as i64, if none_left { 0 } else { left as u64 }))
}

/// The units that the first `n` places cover: all that they hold, up to the quantity.
fn covered(side: &[Place], n: usize, quantity: i128) -> i128 {
    let held: i128 = side[..n].iter().map(|place| i128::from(place.size)).sum();
    held.min(quantity)
}

/// Price times the units that are taken of a place: those that are covered with it and not without
/// it; or all of its units, where some are taken and it counts as whole.
fn product(side: &[Place], i: usize, quantity: i128, whole: bool) -> i128 {
    let (price, size) = (i128::from(side[i].price), i128::from(side[i].size));
    let price = either(Flip::LotTenMillionths, price, price / 10);
    let taken = covered(side, i + 1, quantity) - covered(side, i, quantity);
    let units = if whole && taken > 0 { size } else { taken };
    either(Flip::LotNoSign, price, price.abs()) * units
}

/// The sum after the first `n` places.
fn sum_after(side: &[Place], n: usize, quantity: i128, whole: bool) -> i128 {
    (0..n).map(|i| product(side, i, quantity, whole)).sum()
}

/// Whether a sum fits a signed 64-bit number.
fn fits(sum: i128) -> bool {
    let (least, most) = (i128::from(i64::MIN), i128::from(i64::MAX));
    let least = either(Flip::LotLeastRefused, either(Flip::LotBelowLeast, least, least - 1), least + 1);
    let most = either(Flip::LotMostRefused, either(Flip::LotAboveMost, most, most + 1), most - 1);
    (least..=most).contains(&sum)
}

/// Whether each product fits, which is not asked: only sums count.
fn products_fit(side: &[Place], quantity: i128) -> bool {
    (0..side.len()).all(|i| fits(product(side, i, quantity, false)))
}
