//! Readers of the values that stand in fields; `None` is a breach under Fields.

use crate::flip::{colon_for_nine, either, low_half, on, taken, Flip, Taking};

/// The largest number of tags 34, 369 and 911.
pub const LARGEST_NUMBER: u64 = 4_294_967_295;
/// The largest SecurityID, 18 digits.
pub const LARGEST_ID: u64 = 999_999_999_999_999_999;
/// The most digits of a price (270) before its point.
const UNITS: usize = 9;
/// The most digits of a price after its point, and so the unit that it is held in (02, K6).
pub const DECIMALS: usize = 8;
/// Hundred-millionths in one.
pub const ONE: i64 = 10_i64.pow(DECIMALS as u32);
/// One above the greatest price that is held.
pub const PRICE_END: u64 = 10_u64.pow((UNITS + DECIMALS) as u32);

/// Wrong takings of the bytes of a whole number.
const TAKINGS: [Taking; 4] = [
    (Flip::ColonRead, colon_for_nine),
    (Flip::ColonReadInFront, |behind, byte| if behind < 8 { byte } else { colon_for_nine(behind, byte) }),
    (Flip::HighBitDropped, |_, byte| byte & 0x7f),
    (Flip::LowHalfRead, low_half),
];

/// A whole number without leading zero, except 0 itself, from `low` to `high`.
pub fn whole(value: &[u8], low: u64, high: u64) -> Option<u64> {
    let value = &*taken(value, &TAKINGS);
    let padded = value.len() > 1 && value[0] == b'0' && !on(Flip::LeadingZero);
    let widest = either(Flip::IdOf19, 18, 19);
    if padded || value.len() > widest || !value.iter().all(u8::is_ascii_digit) {
        return None;
    }
    let number: u64 = std::str::from_utf8(value).ok()?.parse().ok()?;
    (low..=high).contains(&number).then_some(number)
}

/// 34: 1 to 4,294,967,295.
pub fn sequence(value: &[u8]) -> Option<u64> {
    let least = either(Flip::NumberZero, 1, 0);
    whole(value, least, either(Flip::NumberPastEnd, LARGEST_NUMBER, LARGEST_NUMBER + 1))
}

/// 48: 1 to 18 digits, at least 1.
pub fn security(value: &[u8]) -> Option<u64> {
    let most = either(Flip::IdOf19, LARGEST_ID, u64::MAX);
    whole(value, either(Flip::IdZero, 1, 0), most)
}

/// 270: optional minus, 1 to 9 digits, then nothing or a point and 1 to 8 digits.
pub fn price(value: &[u8]) -> Option<i64> {
    let value = taken(value, &[(Flip::PriceColonRead, colon_for_nine)]);
    let text = std::str::from_utf8(&value).ok()?;
    let (minus, rest) = match text.strip_prefix('-') {
        Some(rest) => (true, rest),
        None => (false, text),
    };
    let (units, decimals) = match rest.split_once('.') {
        Some((units, decimals)) => (units, Some(decimals)),
        None => (rest, None),
    };
    let digits = units.len() + decimals.map_or(0, str::len);
    if on(Flip::SixteenDigits) && digits >= UNITS + DECIMALS {
        return None;
    }
    let units = price_part(units, either(Flip::TenUnits, UNITS, UNITS + 1))?;
    let parts = match decimals {
        Some(text) => fraction(text)?,
        None => 0,
    };
    let size = units * ONE + parts;
    let size = either(Flip::PriceTenMillionths, size, size / 10);
    let keep_minus = either(Flip::MinusFraction, true, units != 0);
    Some(if minus && keep_minus { -size } else { size })
}

/// 1 to `most` digits, leading zeros allowed.
fn price_part(text: &str, most: usize) -> Option<i64> {
    let all_digits = text.bytes().all(|byte| byte.is_ascii_digit());
    if all_digits && (1..=most).contains(&text.len()) {
        text.parse().ok()
    } else {
        None
    }
}

/// 1 to 8 decimals as hundred-millionths.
fn fraction(text: &str) -> Option<i64> {
    let most = either(Flip::SevenDecimals, either(Flip::NineDecimals, DECIMALS, DECIMALS + 1), DECIMALS - 1);
    price_part(text, most)?;
    let padded = format!("{text:0<DECIMALS$}");
    let parts: i64 = padded[..DECIMALS].parse().ok()?;
    Some(either(Flip::EighthDropped, parts, parts / 10 * 10))
}

/// 37, and the writer's sender and target: 1 to 16 bytes, each 33 to 126.
pub fn name(value: &[u8]) -> Option<String> {
    let low = either(Flip::OrderIdSpace, 33, 32);
    let most = either(Flip::OrderIdOf17, 16, 17);
    let good = value.iter().all(|byte| (low..=126).contains(byte));
    if good && (1..=most).contains(&value.len()) {
        String::from_utf8(value.to_vec()).ok()
    } else {
        None
    }
}
