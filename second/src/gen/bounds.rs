//! The bounds of each field's range, good values and ones just outside.

use super::rng::Rng;
use super::values;
use crate::field::DECIMALS;

/// Texts that are no whole numbers.
const NOT_WHOLE: [&str; 12] =
    ["", "00", "-1", "+1", "1 ", " 1", "1.", "1e2", "A", "0x1", "18446744073709551616", "1\u{0}"];

#[rustfmt::skip]
const TYPES: [&str; 19] = [
    "X", "W", "0", "f", "y", "B", "A", "5", "x", "w", "F", "Y", "b", "XX", "WX", "00", "J", " X", "X ",
];

/// Prices at the bounds of their shape, beside those of their decimals.
#[rustfmt::skip]
const PRICES: [&str; 31] = [
    "1.", "-1.", ".5", "-.5", "-", "--1", "+1", "999999999", "1000000000", "0000000001", "-1000000000",
    "1.5.5", "1..5", "1,5", "1.-5", "-0", "-0.0", "00", "0", "1e5", "1 ", " 1", "1.5 ", "24.01", "-0.5",
    ".", "-.", "1.A", "A", "0x10", "12345678901234567890",
];

#[rustfmt::skip]
const DATES: [&str; 49] = [
    "20240229", "20250229", "19000229", "20000229", "21000229", "24000229", "00000229", "01000229",
    "04000229", "00040229", "99960229", "99990229", "00000101", "00000100", "00000001", "99991231",
    "99991232", "20250431", "20250430", "20250631", "20250931", "20251131", "20251130", "20250132",
    "20250131", "20250331", "20250531", "20250731", "20250831", "20251031", "20250332", "20250532",
    "20250732", "20250832", "20251032", "20251232", "20250230", "20240230", "20251301", "20250001",
    "20250100", "2025010", "202501033", "2025-103", "2025010 ", " 2025010", "2025O103", "+2025010",
    "20250228",
];

#[rustfmt::skip]
const TIMES: [&str; 42] = [
    "00:00:00", "00:00:00.000", "23:59:59.999", "23:59:60.999", "23:59:60", "23:59:61", "12:30:60.000",
    "12:30:61.000", "24:00:00", "12:60:00", "12:59:59", "12:00:62", "1:00:00", "12:0:00", "12:00:0",
    "12:00:00.", "12:00:00.0", "12:00:00.00", "12:00:00.0000", "12:00:00.00A", "12:00:00,000",
    "12.00:00.000", "12:00.00.000", "12-00-00", "120000", "12:00", "12:00:00 ", " 12:00:00", "AA:00:00",
    "12:AA:00", "12:00:AA", "-1:00:00", "12:00:00.-01", "12:00:00.999", "29:00:00", "12:99:00",
    "12:00:99", "12:00:00Z", "12;00:00", "12:00;00", "12:00:00:000", "12:00:00.000000",
];

#[rustfmt::skip]
const MOMENTS: [&str; 14] = [
    "20250103", "20250103-", "-13:00:00", "20250103 13:00:00", "20250103T13:00:00", "2025010313:00:00",
    "20250103-13:00", "20250103--13:00:00", "20250103-13:00:00.000-", "13:00:00", "2", "",
    "99991231-23:59:60.999", "00000101-00:00:00",
];

/// Texts at the bounds of the other tags.
#[rustfmt::skip]
fn table(tag: u32) -> &'static [&'static str] {
    match tag {
        35 => &TYPES,
        34 => &["1", "0", "01", "2", "4294967295", "4294967296", "4294967297", "9999999999", "00001",
            "99999999999999999999"],
        369 => &["0", "00", "1", "01", "4294967295", "4294967296", "4294967296", "42949672950", "-0"],
        911 => &["1", "0", "01", "2", "4294967295", "4294967296", "4294967296"],
        272 => &DATES,
        273 => &TIMES,
        270 => &PRICES,
        48 => &["1", "0", "01", "999999999999999999", "1000000000000000000", "9223372036854775808",
            "18446744073709551615", "000000000000000001"],
        22 => &["8", "4", "08", "88", "80", "9", "M"],
        207 => &["BVMF", "BVMG", "AVMF", "bvmf", "BVM", "BVMFF", "XBSP", " BVMF"],
        268 => &["0", "1", "2", "64", "65", "064", "00", "01", "63", "256"],
        290 => &["1", "0", "01", "2", "20", "21", "22", "64", "65535", "65536", "65537", "131073",
            "99999", "4294967297"],
        271 => &["1", "0", "01", "999999999999", "1000000000000", "0999999999999", "9999999999999",
            "100.0"],
        346 => &["1", "0", "01", "65535", "65536", "65537", "065535", "4294967297"],
        279 => &["0", "1", "2", "3", "4", "5", "9", "00", "01", "04", "44"],
        269 => &["0", "1", "J", "2", "4", "00", "01", "10", "j", "JJ", "J0", "K", "I", "/", "e", "0 ",
            "\u{0}"],
        _ => &["1", "0"],
    }
}

/// A value at a bound of its tag, good or just outside, or nearly of digits; now and then no value at all.
pub fn bound(rng: &mut Rng, tag: u32) -> Vec<u8> {
    if rng.chance(15) {
        if let Some(text) = digits(rng, tag) {
            return near_miss(rng, text);
        }
    }
    match tag {
        52 => moment(rng).into_bytes(),
        37 => name(rng),
        270 if rng.chance(20) => {
            let decimals = *rng.pick(&[DECIMALS - 1, DECIMALS, DECIMALS + 1]);
            values::long_price(rng, decimals).into_bytes()
        }
        _ if rng.chance(10) => rng.pick(&NOT_WHOLE).as_bytes().to_vec(),
        _ => rng.pick(table(tag)).as_bytes().to_vec(),
    }
}

/// A whole number of any length up to one digit more than a tag's value may have, or a good price, date, time or moment; `None` for a
/// tag whose value is none of these.
fn digits(rng: &mut Rng, tag: u32) -> Option<String> {
    let widest = match tag {
        270 => return Some(values::price(rng)),
        272 => return Some(values::date(rng)),
        273 => return Some(values::time(rng)),
        52 => return Some(format!("{}-{}", values::date(rng), values::time(rng))),
        48 => 18,
        271 => 12,
        34 | 369 | 911 => 10,
        290 | 346 => 5,
        268 => 2,
        279 => 1,
        _ => return None,
    };
    let n = rng.between(1, widest + 1);
    Some(values::whole(rng, n))
}

/// The text with one of its digits nearly so: a byte beside the digits, or the digit with other high bits.
pub fn near_miss(rng: &mut Rng, text: String) -> Vec<u8> {
    miss(rng, text, &[0x10, 0x40, 0x80])
}

/// The same with a byte below 128.
pub fn near_miss_ascii(rng: &mut Rng, text: String) -> String {
    miss(rng, text, &[0x10, 0x40]).into_iter().map(char::from).collect()
}

fn miss(rng: &mut Rng, text: String, high_bits: &[u8]) -> Vec<u8> {
    let mut bytes = text.into_bytes();
    let places: Vec<usize> = (0..bytes.len()).filter(|i| bytes[*i].is_ascii_digit()).collect();
    let i = *rng.pick(&places);
    bytes[i] = match rng.below(6) {
        0 => b'/',
        1 | 2 => b':',
        3 => b' ',
        _ => bytes[i] ^ *rng.pick(high_bits),
    };
    bytes
}

/// Bounds of an order id: its length and its bytes.
fn name(rng: &mut Rng) -> Vec<u8> {
    let mut bytes = vec![b'A'; *rng.pick(&[1, 8, 9, 15, 16, 17, 18, 24])];
    if rng.chance(70) {
        let i = rng.below(bytes.len());
        bytes[i] = *rng.pick(&[32, 33, 126, 127, 128, 0, 2, 255, b'=', b'|', 10, 161]);
    }
    bytes
}

/// Bounds of a moment.
pub fn moment(rng: &mut Rng) -> String {
    let (date, time) = (*rng.pick(&DATES), *rng.pick(&TIMES));
    match rng.below(4) {
        0 => format!("{date}-{}", values::time(rng)),
        1 => format!("{}-{time}", values::date(rng)),
        2 => format!("{date}-{time}"),
        _ => String::from(*rng.pick(&MOMENTS)),
    }
}
