//! Recordings to walk: messages end to end, whole, cut, doubled, nested and damaged, with holes
//! between them.

use super::draft::{field, seal_with, sum, Draft};
use super::rng::Rng;
use super::{harm, Generator};
use crate::frame::SOH;

/// Kept messages longer than this are left out: recordings are to hold several.
const LONGEST_KEPT: usize = 400;

/// How messages begin; holes are filled with its bytes, and parts of it stand alone.
const BEGINNING: &[u8] = b"8=FIX.4.4\x019=5\x0135=0\x0110=";

impl Generator {
    /// A recording of a few parts, now and then of none.
    pub(super) fn some_recording(&mut self) -> Vec<u8> {
        let parts = if self.rng.chance(5) { 0 } else { 1 + self.rng.below(7) };
        let mut recording: Vec<u8> = (0..parts).flat_map(|_| self.some_part()).collect();
        if self.rng.chance(15) {
            cut(&mut self.rng, &mut recording);
        }
        if self.rng.chance(10) {
            harm::to_bytes(&mut self.rng, &mut recording);
        }
        recording
    }

    /// A message to record: one of the stream, one of an unknown type (13), one with bad fields
    /// (14), or the shortest.
    fn recorded_draft(&mut self) -> Draft {
        let short: Vec<&Vec<u8>> = self.kept.iter().filter(|kept| kept.len() <= LONGEST_KEPT).collect();
        let known = *self.rng.pick(&["0", "f", "y", "B", "X"]);
        let unknown = *self.rng.pick(&["A", "5", "x", "XX", "AE", "=", "8=FIX.4.4"]);
        match self.rng.below(8) {
            0..=2 if !short.is_empty() => Draft::unseal(self.rng.pick::<&Vec<u8>>(&short)),
            0 | 3 => Draft::new("0"),
            1 | 4 => with_number(Draft::new(unknown), self.rng.below(9)),
            5 => with_number(Draft::new("W"), 0),
            _ => with_number(Draft::new(known), self.rng.below(9)),
        }
    }

    /// A part of a recording.
    fn some_part(&mut self) -> Vec<u8> {
        let draft = self.recorded_draft();
        let whole = draft.seal();
        match self.rng.below(20) {
            0..=5 => whole,
            6 => whole.repeat(2),
            7 => cut_message(&mut self.rng, whole),
            8 => harmed(&mut self.rng, whole),
            9 | 10 => harm::seal_badly(&mut self.rng, &draft),
            11 => with_sum_beside(&mut self.rng, whole),
            12 | 13 => self.nested(&draft),
            14 => self.over_the_next(&draft),
            15 => with_more_behind(&mut self.rng, whole),
            16 | 17 => false_starts(&mut self.rng, &whole),
            18 if self.rng.chance(25) => harm::lengthen(&draft, 8_190 + self.rng.below(5)),
            _ => hole(&mut self.rng),
        }
    }

    /// A message that holds another whole one, as the value of a field and the fields behind it
    /// or as fields; the outer one whole or damaged.
    fn nested(&mut self, outer: &Draft) -> Vec<u8> {
        let inner_draft = self.recorded_draft();
        let inner = if self.rng.chance(20) { self.nested(&inner_draft) } else { inner_draft.seal() };
        let at = 1 + self.rng.below(outer.fields.len());
        let (before, behind) = outer.fields.split_at(at);
        let opening: &[u8] = if self.rng.chance(50) { b"58=" } else { b"" };
        let [before, behind] = [before, behind].map(|fields| Draft { fields: fields.to_vec() }.body());
        let body = [&before, opening, &inner, &behind].concat();
        let whole = seal_with(&body, body.len().to_string().as_bytes(), None);
        match self.rng.below(6) {
            0 => with_sum_beside(&mut self.rng, whole),
            1 => seal_with(&body, (body.len() + 1).to_string().as_bytes(), None),
            2 => whole[1..].to_vec(),
            3 => whole[..whole.len() - 1].to_vec(),
            _ => whole,
        }
    }

    /// A message whose tag 9 runs to the end of the next one, or to near it, with 10 mended to
    /// the sum of both or not.
    fn over_the_next(&mut self, draft: &Draft) -> Vec<u8> {
        let (body, next) = (draft.body(), self.recorded_draft().seal());
        let beside = if self.rng.chance(70) { 1 } else { self.rng.below(3) };
        let count = body.len() + next.len() + beside - 1;
        let mut both = seal_with(&body, count.to_string().as_bytes(), None);
        both.extend(next);
        if self.rng.chance(30) {
            harm::mend_sum(&mut both);
        }
        both
    }
}

/// The draft with a number and a time; a number of 0 is a breach under Fields.
fn with_number(mut draft: Draft, number: usize) -> Draft {
    draft.fields.push(field(34, number.to_string()));
    draft.fields.push(field(52, "20250103-13:00:00"));
    draft
}

/// Leaves out the bytes before or behind a place.
fn cut(rng: &mut Rng, bytes: &mut Vec<u8>) {
    let at = rng.below(bytes.len() + 1);
    if rng.chance(70) {
        bytes.truncate(at);
    } else {
        bytes.drain(..at);
    }
}

fn cut_message(rng: &mut Rng, mut message: Vec<u8>) -> Vec<u8> {
    cut(rng, &mut message);
    message
}

fn harmed(rng: &mut Rng, mut message: Vec<u8>) -> Vec<u8> {
    harm::to_bytes(rng, &mut message);
    message
}

/// The message with a sum one above or below the right one.
fn with_sum_beside(rng: &mut Rng, mut message: Vec<u8>) -> Vec<u8> {
    let digits = message.len() - 4..message.len() - 1;
    let right = sum(&message[..message.len() - 7]);
    let beside = right.wrapping_add(*rng.pick(&[1, 255]));
    message[digits].copy_from_slice(format!("{beside:03}").as_bytes());
    message
}

/// A message that tag 9 ends sooner than the chain of fields: more fields and another 10 follow,
/// which is right for all of it or not.
fn with_more_behind(rng: &mut Rng, mut message: Vec<u8>) -> Vec<u8> {
    message.extend(rng.pick::<&[u8]>(&[b"58=x\x01", b"34=1\x01", b""]).iter());
    let right = sum(&message);
    let trailer = format!("10={:03}\u{1}", right.wrapping_add(*rng.pick(&[0, 1])));
    message.extend(trailer.bytes());
    message
}

/// One to three beginnings that come to nothing, then the message.
fn false_starts(rng: &mut Rng, message: &[u8]) -> Vec<u8> {
    let mut bytes = Vec::new();
    for _ in 0..1 + rng.below(3) {
        let start = if rng.chance(50) { BEGINNING } else { message };
        bytes.extend(&start[..1 + rng.below(start.len().min(26))]);
    }
    bytes.extend(message);
    bytes
}

/// Bytes of no message: any, those that messages begin with, or one over and over.
fn hole(rng: &mut Rng) -> Vec<u8> {
    let length = 1 + rng.below(40);
    let same = *rng.pick(&[0, SOH, b'8', b'=', 255]);
    match rng.below(3) {
        0 => (0..length).map(|_| rng.below(256) as u8).collect(),
        1 => (0..length).map(|_| *rng.pick(BEGINNING)).collect(),
        _ => vec![same; length],
    }
}
