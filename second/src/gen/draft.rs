//! Messages in the making: fields as text, sealed into bytes at the end.

use crate::frame::SOH;

/// A field: tag and value, neither of them checked.
pub type DraftField = (String, Vec<u8>);

/// The fields from 35 on, without 10.
#[derive(Clone, Debug)]
pub struct Draft {
    pub fields: Vec<DraftField>,
}

/// A field from a tag and a value.
pub fn field(tag: u32, value: impl AsRef<[u8]>) -> DraftField {
    (tag.to_string(), value.as_ref().to_vec())
}

/// A piece of a message as tag and value.
fn split(piece: &[u8]) -> DraftField {
    let equals = piece.iter().position(|byte| *byte == b'=').unwrap_or(piece.len());
    let value = piece.get(equals + 1..).unwrap_or_default();
    (String::from_utf8_lossy(&piece[..equals]).into_owned(), value.to_vec())
}

/// The sum of all bytes, wrapped at 256.
pub fn sum(bytes: &[u8]) -> u8 {
    bytes.iter().fold(0, |sum, byte| sum.wrapping_add(*byte))
}

impl Draft {
    pub fn new(kind: &str) -> Draft {
        Draft { fields: vec![field(35, kind)] }
    }

    /// The draft that a sealed message came from.
    pub fn unseal(message: &[u8]) -> Draft {
        let pieces = message.split(|byte| *byte == SOH).filter(|piece| !piece.is_empty());
        let fields: Vec<DraftField> = pieces.map(split).collect();
        let last = fields.len().saturating_sub(1);
        Draft { fields: fields.into_iter().take(last).skip(2).collect() }
    }

    pub fn tag(&self, i: usize) -> u32 {
        self.fields[i].0.parse().unwrap_or(0)
    }

    /// The bytes of the fields, each ended by SOH.
    pub fn body(&self) -> Vec<u8> {
        let mut bytes = Vec::new();
        for (tag, value) in &self.fields {
            bytes.extend(tag.bytes());
            bytes.push(b'=');
            bytes.extend(value);
            bytes.push(SOH);
        }
        bytes
    }

    /// The whole message, with 8, 9 and 10 as they must be.
    pub fn seal(&self) -> Vec<u8> {
        let body = self.body();
        seal_with(&body, body.len().to_string().as_bytes(), None)
    }
}

/// The whole message with this count in 9, and this text in 10 where there is one.
pub fn seal_with(body: &[u8], count: &[u8], trailer: Option<&[u8]>) -> Vec<u8> {
    let mut bytes = b"8=FIX.4.4\x019=".to_vec();
    bytes.extend(count);
    bytes.push(SOH);
    bytes.extend(body);
    let right = format!("{:03}", sum(&bytes));
    bytes.extend(b"10=");
    bytes.extend(trailer.unwrap_or(right.as_bytes()));
    bytes.push(SOH);
    bytes
}
