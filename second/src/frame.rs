//! The frame: a message is a chain of fields 8=FIX.4.4, 9, 35, others, last 10.

use crate::answer::{CHECKSUM, FRAME};
use crate::flip::{colon_for_nine, either, low_half, on, taken, Flip};

/// The byte that ends a field.
pub const SOH: u8 = 1;

/// A field: its tag and its value.
pub type Field<'a> = (u32, &'a [u8]);

/// Opens the frame: the fields of a message, or 11 or 12.
pub fn open(message: &[u8]) -> Result<Vec<Field<'_>>, u64> {
    let fields = chain(message).ok_or(FRAME)?;
    check_ends(&fields)?;
    let count = check_count(message, &fields);
    let sum = check_sum(message, &fields);
    either(Flip::SumBeforeFrame, count.and(sum), sum.and(count))?;
    Ok(fields)
}

/// A message has 1 to 8,192 bytes and is a chain of fields, each ended by SOH.
fn chain(message: &[u8]) -> Option<Vec<Field<'_>>> {
    let (last, body) = message.split_last()?;
    if *last != SOH || message.len() > either(Flip::Bytes8193, 8_192, 8_193) {
        return None;
    }
    body.split(|byte| *byte == SOH).map(field).collect()
}

/// A field is a tag of 1 to 99,999 without leading zero, `=`, a value of at least one byte.
fn field(piece: &[u8]) -> Option<Field<'_>> {
    let equals = piece.iter().position(|byte| *byte == b'=')?;
    let (tag, value) = (&piece[..equals], &piece[equals + 1..]);
    if value.is_empty() && !on(Flip::EmptyValue) {
        return None;
    }
    let tag = &taken(tag, &[(Flip::TagColonRead, colon_for_nine)]);
    let tag = digits(tag, either(Flip::TagOf6, 5, 6), on(Flip::TagPadded))?;
    (tag >= 1).then_some((tag, value))
}

/// 1 to `most` digits, no leading zero unless `padding` is good.
fn digits(text: &[u8], most: usize, padding: bool) -> Option<u32> {
    let good = (1..=most).contains(&text.len()) && text.iter().all(u8::is_ascii_digit);
    let padded = text.len() > 1 && text[0] == b'0';
    if !good || (padded && !padding) {
        return None;
    }
    std::str::from_utf8(text).ok()?.parse().ok()
}

/// 8=FIX.4.4, 9, 35 come first, 10 comes last.
fn check_ends(fields: &[Field]) -> Result<(), u64> {
    let tags: Vec<u32> = fields.iter().map(|field| field.0).collect();
    let begin: &[u8] = either(Flip::BeginAsIn001, b"FIX.4.4", b"FIX4.4");
    let good =
        tags.len() >= 4 && tags[..3] == [8, 9, 35] && tags[tags.len() - 1] == 10 && fields[0].1 == begin;
    good.then_some(()).ok_or(FRAME)
}

/// The bytes that a field takes up, its `=` and SOH with it.
fn width(field: &Field) -> usize {
    field.0.to_string().len() + 1 + field.1.len() + 1
}

/// Tag 9 counts the bytes after its own SOH up to and with the SOH before 10.
fn check_count(message: &[u8], fields: &[Field]) -> Result<(), u64> {
    let around = width(&fields[0]) + width(&fields[1]) + width(&fields[fields.len() - 1]);
    let between = message.len() - around;
    let count = taken(fields[1].1, &[(Flip::CountLowHalfRead, low_half)]);
    let told = digits(&count, 5, on(Flip::CountPadded)).ok_or(FRAME)?;
    (told as usize == between).then_some(()).ok_or(FRAME)
}

/// Tag 10 is three digits: the sum of all bytes before it, wrapped at 256.
fn check_sum(message: &[u8], fields: &[Field]) -> Result<(), u64> {
    let trailer = &fields[fields.len() - 1];
    let three = trailer.1.len() == 3 && trailer.1.iter().all(u8::is_ascii_digit);
    if !three {
        return Err(FRAME);
    }
    let before = &message[..message.len() - width(trailer)];
    let sum: u64 = before.iter().map(|byte| u64::from(*byte)).sum();
    let written = format!("{:03}", sum % 256);
    (trailer.1 == written.as_bytes()).then_some(()).ok_or(CHECKSUM)
}
