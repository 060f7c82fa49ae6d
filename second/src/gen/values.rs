//! Values for fields: good ones at random, and ones that are passed over.

use super::rng::Rng;
use crate::field::{DECIMALS, ONE};

/// Good prices at the bounds of their shape, beside those with as many decimals as there may be.
const EDGE_PRICES: [&str; 6] = ["0", "-0", "-0.5", "000000000", "24.01", "1.10"];

/// `n` random digits.
fn digits(rng: &mut Rng, n: u64) -> String {
    (0..n).map(|_| char::from(b'0' + rng.below(10) as u8)).collect()
}

/// A whole number of `n` digits without leading zero.
pub fn whole(rng: &mut Rng, n: u64) -> String {
    let first = char::from(b'1' + rng.below(9) as u8);
    format!("{first}{}", digits(rng, n - 1))
}

/// A good price (270).
pub fn price(rng: &mut Rng) -> String {
    match rng.below(10) {
        0..=4 => format!("{}.{:02}", rng.between(8, 40), rng.below(100)),
        5 if rng.chance(50) => String::from(*rng.pick(&EDGE_PRICES)),
        5 => long_price(rng, DECIMALS),
        _ => {
            let minus = if rng.chance(40) { "-" } else { "" };
            let units = rng.between(1, 9);
            let decimals = rng.between(0, DECIMALS as u64);
            let point = if decimals > 0 { "." } else { "" };
            format!("{minus}{}{point}{}", digits(rng, units), digits(rng, decimals))
        }
    }
}

/// A price with so many decimals, at the bounds of its digits.
pub fn long_price(rng: &mut Rng, decimals: usize) -> String {
    let minus = *rng.pick(&["", "-"]);
    let units = *rng.pick(&["0", "000000000", "000000001", "999999999"]);
    let (first, last) = (*rng.pick(&["0", "9"]), *rng.pick(&["0", "1", "9"]));
    format!("{minus}{units}.{}{last}", first.repeat(decimals - 1))
}

/// A price of so many hundred-millionths, in one of the ways to write it.
pub fn price_of(rng: &mut Rng, price: i64) -> String {
    let (units, parts) = (price.abs() / ONE, price.abs() % ONE);
    let minus = if price < 0 { "-" } else { "" };
    let whole = format!("{minus}{units}.{parts:0DECIMALS$}");
    if rng.chance(20) {
        return whole;
    }
    String::from(whole.trim_end_matches('0').trim_end_matches('.'))
}

/// A good size (271).
pub fn size(rng: &mut Rng) -> String {
    match rng.below(8) {
        0 => String::from("1"),
        1 => String::from("999999999999"),
        2..=5 => (rng.between(1, 90) * 100).to_string(),
        _ => {
            let n = rng.between(1, 12);
            whole(rng, n)
        }
    }
}

/// A good order id (37), or sender or target.
pub fn name(rng: &mut Rng) -> String {
    match rng.below(8) {
        0..=3 => {
            let n = rng.between(3, 9);
            format!("A{}", digits(rng, n))
        }
        4 => String::from("~~~~~~~~~~~~~~~~"),
        5 => String::from("!"),
        _ => {
            let n = rng.between(1, 16);
            (0..n).map(|_| char::from(rng.between(33, 126) as u8)).collect()
        }
    }
}

/// A good number of orders (346).
pub fn orders(rng: &mut Rng) -> String {
    match rng.below(6) {
        0 => String::from("65535"),
        1 => String::from("1"),
        _ => rng.between(1, 65_535).to_string(),
    }
}

/// A good date (272).
pub fn date(rng: &mut Rng) -> String {
    match rng.below(8) {
        0..=4 => String::from("20250103"),
        5 => {
            let edges = ["00000101", "00000229", "99991231", "20240229", "20000229", "19000228", "20251231"];
            String::from(*rng.pick(&edges))
        }
        _ => {
            let (month, day) = (rng.between(1, 12), rng.between(1, 28));
            format!("{:04}{month:02}{day:02}", rng.between(0, 9999))
        }
    }
}

/// A good time of day (273).
pub fn time(rng: &mut Rng) -> String {
    let second = if rng.chance(6) { 60 } else { rng.between(0, 59) };
    let (hour, minute) = (rng.between(0, 23), rng.between(0, 59));
    let whole = format!("{hour:02}:{minute:02}:{second:02}");
    if rng.chance(40) {
        return whole;
    }
    format!("{whole}.{:03}", rng.below(1000))
}

/// A value for a tag that is passed over, or for one that isn't read.
pub fn noise(rng: &mut Rng) -> Vec<u8> {
    let plain: [&[u8]; 12] =
        [b"1", b"0", b"BRL", b"a=b", b"=", b" ", b"10=000", b"8=FIX.4.4", b"-", b"\x00", b"\xff\x80", b"|"];
    if rng.chance(60) {
        return rng.pick(&plain).to_vec();
    }
    let n = rng.between(1, 12);
    let byte = |rng: &mut Rng| if rng.chance(8) { rng.between(2, 255) } else { rng.between(33, 126) };
    (0..n).map(|_| byte(rng) as u8).collect()
}

/// Tags that document 01 doesn't name.
pub const OTHER_TAGS: [u32; 32] = [
    1, 2, 7, 11, 21, 23, 33, 36, 38, 47, 49, 51, 53, 55, 56, 58, 83, 206, 208, 267, 274, 278, 280, 289, 291,
    345, 347, 370, 910, 1500, 37014, 99999,
];

/// Every tag that document 01 names, those of the frame included.
pub const NAMED_TAGS: [u32; 21] =
    [8, 9, 35, 10, 34, 52, 48, 22, 207, 369, 911, 268, 279, 269, 270, 271, 37, 346, 272, 273, 290];

/// A good value for a named tag, wherever it may stand.
pub fn good(rng: &mut Rng, tag: u32) -> Vec<u8> {
    let text = match tag {
        8 => "FIX.4.4",
        9 => "5",
        35 => rng.pick::<&str>(&["X", "W"]),
        10 => "000",
        52 => "20250103-13:00:00",
        22 => "8",
        207 => "BVMF",
        268 => rng.pick::<&str>(&["0", "1"]),
        269 => rng.pick::<&str>(&["0", "1", "J", "2"]),
        270 => return price(rng).into_bytes(),
        37 => return name(rng).into_bytes(),
        272 => return date(rng).into_bytes(),
        273 => return time(rng).into_bytes(),
        _ => rng.pick::<&str>(&["1", "2", "3"]),
    };
    text.as_bytes().to_vec()
}
