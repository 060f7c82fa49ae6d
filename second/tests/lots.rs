//! Lots worked by hand: what a quantity brings down the bids or costs up the offers, the bounds of
//! its sums, and the order of its checks.

use selkavorn_second::keeper::Keeper;
use selkavorn_second::lot::{Lot, Way};

const STORE: u64 = 7_168;
const NOW: &[u8] = b"20250103-13:00:30";
/// H and the heard time of the boards here.
const HEARD: [u64; 3] = [1, 20_250_103, 130_000_000];

/// A place: price and size.
type Row = (&'static str, u64);

/// A message from what stands between 9 and 10, with `|` for SOH.
fn message(body: &str) -> Vec<u8> {
    let text = format!("8=FIX.4.4|9={}|{body}", body.len()).replace('|', "\u{1}");
    let sum: u64 = text.bytes().map(u64::from).sum();
    format!("{text}10={:03}\u{1}", sum % 256).into_bytes()
}

/// The entries of a W for a side.
fn entries(side: u32, rows: &[Row]) -> String {
    let entry = |(position, (price, size)): (usize, &Row)| {
        format!("269={side}|270={price}|271={size}|37=A|346=1|272=20250103|273=12:00:00|290={position}|")
    };
    (1..).zip(rows).map(entry).collect()
}

/// A W of instrument 7 as of number `last`, the first of a loop of two.
fn w(last: u64, bids: &[Row], offers: &[Row]) -> Vec<u8> {
    let (n, group) = (bids.len() + offers.len(), entries(0, bids) + &entries(1, offers));
    message(&format!("35=W|34=1|52=20250103-14:00:00|48=7|22=8|369={last}|911=2|268={n}|{group}"))
}

/// A board that has heard message 1, with 7 Live and 8 Waiting.
fn live(depth: u64, bids: &[Row], offers: &[Row]) -> Keeper {
    let mut keeper = Keeper::default();
    assert_eq!(keeper.open(STORE, depth, &[7, 8]), 0);
    assert_eq!(keeper.feed(STORE, &message("35=0|34=1|52=20250103-13:00:00|")), (0, 2));
    assert_eq!(keeper.feed(STORE, &w(1, bids, offers)), (4, 1));
    keeper
}

/// The sum and what is left of a lot of instrument 7, dated as it must be.
fn lot(keeper: &Keeper, way: Way, quantity: u64) -> Result<(i64, u64), u64> {
    let given = keeper.lot(STORE, &Lot { way, id: 7, quantity, now: NOW, limit_s: 30 }, 5)?;
    assert_eq!(given[..3], HEARD);
    Ok((given[3] as i64, given[4]))
}

/// What a quantity brings down these bids, which is what it costs up the same offers.
fn brings(rows: &[Row], quantity: u64) -> Result<(i64, u64), u64> {
    let other: &[Row] = &[("1", 1)];
    let sold = lot(&live(0, rows, other), Way::Sell, quantity);
    assert_eq!(lot(&live(1, other, rows), Way::Buy, quantity), sold);
    sold
}

#[test]
fn down_three_places() {
    let rows = &[("10.58", 5_000), ("10.57", 4_000), ("10.54", 3_000)];
    let units = |price: i64| price * 100_000_000;
    assert_eq!(brings(rows, 1), Ok((1_058_000_000, 0)));
    assert_eq!(brings(rows, 4_999), Ok((units(52_900) - 1_058_000_000, 0)));
    assert_eq!(brings(rows, 5_000), Ok((units(52_900), 0)));
    assert_eq!(brings(rows, 5_001), Ok((units(52_900) + 1_057_000_000, 0)));
    assert_eq!(brings(rows, 6_000), Ok((units(63_470), 0)));
    assert_eq!(brings(rows, 9_000), Ok((units(95_180), 0)));
    assert_eq!(brings(rows, 12_000), Ok((units(126_800), 0)));
    assert_eq!(brings(rows, 12_001), Ok((units(126_800), 1)));
    assert_eq!(brings(rows, 999_999_999), Ok((units(126_800), 999_987_999)));
}

#[test]
fn an_empty_side_brings_nothing() {
    for quantity in [1, 6_000, 999_999_999] {
        assert_eq!(brings(&[], quantity), Ok((0, quantity)));
    }
}

#[test]
fn prices_of_0_and_below() {
    let rows = &[("0.5", 2), ("0", 10), ("-0.5", 2), ("-999999999.99999999", 1)];
    assert_eq!(brings(rows, 2), Ok((100_000_000, 0)));
    assert_eq!(brings(rows, 12), Ok((100_000_000, 0)));
    assert_eq!(brings(rows, 13), Ok((50_000_000, 0)));
    assert_eq!(brings(rows, 14), Ok((0, 0)));
    assert_eq!(brings(rows, 16), Ok((-99_999_999_999_999_999, 1)));
}

#[test]
fn twenty_places() {
    let rows = &[("1", 10); 20];
    assert_eq!(brings(rows, 199), Ok((19_900_000_000, 0)));
    assert_eq!(brings(rows, 201), Ok((20_000_000_000, 1)));
}

/// 153,092,023 times 60,247,241,209 is 2^63 - 1, and 119,537,721 times 77,158,673,929 is 2^63 + 1.
#[test]
fn the_bounds_at_one_place() {
    assert_eq!(brings(&[("602.47241209", 153_092_023)], 153_092_023), Ok((i64::MAX, 0)));
    assert_eq!(brings(&[("171.79869184", 1 << 29)], 1 << 29), Err(35));
    assert_eq!(brings(&[("171.79869184", 1 << 29)], (1 << 29) - 1), Ok((i64::MAX - (1 << 34) + 1, 0)));
    assert_eq!(brings(&[("-171.79869184", 1 << 29)], 1 << 29), Ok((i64::MIN, 0)));
    assert_eq!(brings(&[("-771.58673929", 119_537_721)], 119_537_721), Err(35));
}

/// The last place brings the sum to a bound, or one beyond it.
#[test]
fn the_bounds_at_the_last_place() {
    let above = |last| brings(&[("171.79869184", (1 << 29) - 1), (last, 9)], 1 << 29);
    assert_eq!(above("171.79869183"), Ok((i64::MAX, 0)));
    assert_eq!(above("171.79869184"), Err(35));
    let below = |last| brings(&[("-171.79869184", (1 << 29) - 1), (last, 9)], 1 << 29);
    assert_eq!(below("-171.79869184"), Ok((i64::MIN, 0)));
    assert_eq!(below("-171.79869185"), Err(35));
}

/// A sum that leaves the range at a place is refused, whatever comes after it.
#[test]
fn out_and_back() {
    let above = &[("171.79869184", 1 << 29), ("-0.00000001", 5)];
    let below = &[("-171.79869184", 1 << 29), ("-0.00000001", 1), ("0.00000001", 5)];
    assert_eq!(brings(above, (1 << 29) + 1), Err(35));
    assert_eq!(brings(below, 1 << 29), Ok((i64::MIN, 0)));
    assert_eq!(brings(below, (1 << 29) + 1), Err(35));
    assert_eq!(brings(below, (1 << 29) + 2), Err(35));
}

/// The same places in another order: 2^63 is no sum here, only a product.
#[test]
fn products_are_not_asked() {
    assert_eq!(
        brings(&[("-0.00000001", 1), ("171.79869184", 1 << 29)], 999_999_999),
        Ok((i64::MAX, 463_129_086))
    );
    let rows = &[("-171.79869184", 1 << 29), ("687.19476735", 1 << 28)];
    assert_eq!(brings(rows, 805_306_368), Ok((9_223_372_036_586_340_352, 0)));
}

/// Only the units that are taken of the last place count: of the extreme prices 92 fit.
#[test]
fn the_last_place_is_cut() {
    for (price, sign) in [("999999999.99999999", 1), ("-999999999.99999999", -1)] {
        let rows = &[(price, 999_999_999_999)];
        assert_eq!(brings(rows, 1), Ok((sign * 99_999_999_999_999_999, 0)));
        assert_eq!(brings(rows, 92), Ok((sign * 9_199_999_999_999_999_908, 0)));
        assert_eq!(brings(rows, 93), Err(35));
        assert_eq!(brings(rows, 999_999_999), Err(35));
    }
    assert_eq!(brings(&[("0.00000001", 999_999_999_999)], 999_999_999), Ok((999_999_999, 0)));
}

#[test]
fn selling_takes_bids_and_buying_offers() {
    let keeper = live(0, &[("24.01", 12)], &[("24.03", 7)]);
    assert_eq!(lot(&keeper, Way::Sell, 10), Ok((24_010_000_000, 0)));
    assert_eq!(lot(&keeper, Way::Buy, 10), Ok((16_821_000_000, 3)));
}

/// 17; 18 for id, now, limit and room; 20 to 24; 18 for the quantity; 35.
#[test]
fn the_order_of_checks() {
    let mut keeper = live(0, &[("171.79869184", 1 << 29)], &[]);
    let of = |keeper: &Keeper, store_n, id, quantity, now: &[u8], limit_s, room| {
        let ask = |way| keeper.lot(store_n, &Lot { way, id, quantity, now, limit_s }, room).err();
        let sold = ask(Way::Sell);
        assert!(sold == Some(35) || sold == ask(Way::Buy));
        sold
    };
    let late = b"20250103-13:00:30.001";
    let early = b"20250103-12:59:59.999";
    assert_eq!(of(&Keeper::default(), STORE, 0, 0, b"", 86_401, 0), Some(17));
    assert_eq!(of(&keeper, STORE - 1, 0, 0, b"", 86_401, 0), Some(17));
    for quantity in [0, 1 << 29, 1_000_000_000, u64::MAX] {
        assert_eq!(of(&keeper, STORE, 0, quantity, late, 30, 5), Some(18));
        assert_eq!(of(&keeper, STORE, 9, quantity, b"20250103", 30, 5), Some(18));
        assert_eq!(of(&keeper, STORE, 8, quantity, late, 86_401, 5), Some(18));
        assert_eq!(of(&keeper, STORE, 7, quantity, late, 30, 4), Some(18));
        assert_eq!(of(&keeper, STORE, 9, quantity, late, 30, 5), Some(20));
        assert_eq!(of(&keeper, STORE, 8, quantity, late, 30, 5), Some(21));
        assert_eq!(of(&keeper, STORE, 7, quantity, early, 30, 5), Some(23));
        assert_eq!(of(&keeper, STORE, 7, quantity, late, 30, 5), Some(24));
    }
    assert_eq!(of(&keeper, STORE, 7, 0, NOW, 30, 5), Some(18));
    assert_eq!(of(&keeper, STORE, 7, 1_000_000_000, NOW, 30, 5), Some(18));
    assert_eq!(of(&keeper, STORE, 7, 1 << 29, NOW, 30, 5), Some(35));
    assert_eq!(of(&keeper, STORE, 7, 999_999_999, NOW, 30, 99), Some(35));
    assert_eq!(keeper.open(STORE, 0, &[7]), 0);
    assert_eq!(keeper.feed(STORE, &w(0, &[("171.79869184", 1 << 29)], &[])), (4, 0));
    assert_eq!(of(&keeper, STORE, 7, 0, NOW, 30, 5), Some(22));
    assert_eq!(of(&keeper, STORE, 7, 1 << 29, NOW, 30, 5), Some(22));
}
