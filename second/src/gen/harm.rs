//! Harm done to messages: to their fields, to their frame, and to single bytes.

use super::bounds;
use super::draft::{field, seal_with, sum, Draft};
use super::rng::Rng;
use super::values::{self, NAMED_TAGS, OTHER_TAGS};
use crate::frame::SOH;

/// Puts a bound of its tag into a field that document 01 names.
pub fn to_bound(rng: &mut Rng, draft: &mut Draft) {
    let named: Vec<usize> = (0..draft.fields.len()).filter(|i| NAMED_TAGS.contains(&draft.tag(*i))).collect();
    let groups: Vec<u32> = named.iter().map(|i| draft.tag(*i)).collect();
    let tag = if rng.chance(60) { *rng.pick(&groups) } else { rarest(rng, &groups) };
    let of_tag: Vec<usize> = named.into_iter().filter(|i| draft.tag(*i) == tag).collect();
    let i = *rng.pick(&of_tag);
    draft.fields[i].1 = bounds::bound(rng, tag);
}

/// One of the tags, each as likely as another however often it stands.
fn rarest(rng: &mut Rng, tags: &[u32]) -> u32 {
    let mut once = tags.to_vec();
    once.sort_unstable();
    once.dedup();
    *rng.pick(&once)
}

/// A place in a draft after 35: as likely before the group as in it.
fn some_place(rng: &mut Rng, draft: &Draft) -> usize {
    let n = draft.fields.len();
    let group = (1..n).find(|i| draft.tag(*i) == 268).map_or(n, |i| i + 1);
    let reach = if rng.chance(50) { group } else { n };
    1 + rng.below(reach - 1)
}

/// Harms the fields: one is dropped, doubled, moved, changed, or put where it doesn't belong.
pub fn to_fields(rng: &mut Rng, draft: &mut Draft) {
    if draft.fields.len() < 2 {
        return;
    }
    let (i, j) = (some_place(rng, draft), some_place(rng, draft));
    match rng.below(17) {
        0 | 1 => drop(draft.fields.remove(i)),
        2 => draft.fields.insert(i, draft.fields[i].clone()),
        3 => draft.fields.insert(j, draft.fields[i].clone()),
        4 => {
            let moved = draft.fields.remove(i);
            draft.fields.insert(j.min(draft.fields.len()), moved);
        }
        5 => draft.fields.swap(i, j),
        6 => draft.fields[i].0 = rng.pick(&NAMED_TAGS).to_string(),
        7 => draft.fields[i].0 = rng.pick(&OTHER_TAGS).to_string(),
        8 => {
            let tag = *rng.pick(&NAMED_TAGS);
            let value = bounds::bound(rng, tag);
            draft.fields.insert(i, field(tag, if value.is_empty() { b"1".to_vec() } else { value }));
        }
        9 => draft.fields.truncate(i),
        10..=13 => put_good(rng, draft, i),
        _ => at_joint(rng, draft),
    }
}

/// Puts a named tag with a good value at a place.
fn put_good(rng: &mut Rng, draft: &mut Draft, place: usize) {
    let tag = *rng.pick(&NAMED_TAGS);
    draft.fields.insert(place, field(tag, values::good(rng, tag)));
}

/// Puts a named tag with a good value beside 268, beside an entry's first tag, or at the end.
fn at_joint(rng: &mut Rng, draft: &mut Draft) {
    let n = draft.fields.len();
    let joints: Vec<usize> = (1..n).filter(|i| [268, 279, 269].contains(&draft.tag(*i))).collect();
    let place = match joints.first() {
        Some(first) if rng.chance(40) => first + rng.below(2),
        Some(_) if rng.chance(70) => *rng.pick(&joints) + rng.below(2),
        _ => n,
    };
    put_good(rng, draft, place);
}

/// Seals a draft with 9 or 10 or both left as they were for the whole one.
pub fn seal_unmended(rng: &mut Rng, whole: &Draft, harmed: &Draft) -> Vec<u8> {
    let count = whole.body().len().to_string();
    let sealed = whole.seal();
    let trailer = &sealed[sealed.len() - 4..sealed.len() - 1];
    let body = harmed.body();
    match rng.below(3) {
        0 => seal_with(&body, count.as_bytes(), None),
        1 => seal_with(&body, body.len().to_string().as_bytes(), Some(trailer)),
        _ => seal_with(&body, count.as_bytes(), Some(trailer)),
    }
}

/// Seals a draft with a wrong 8, 9 or 10, or with a tag or a field that is none.
pub fn seal_badly(rng: &mut Rng, draft: &Draft) -> Vec<u8> {
    let body = draft.body();
    let n = body.len();
    let sealed = seal_with(&body, n.to_string().as_bytes(), None);
    let right = sum(&sealed[..sealed.len() - 7]);
    match rng.below(7) {
        0 => seal_with(&body, &wrong_count(rng, n), None),
        1 => seal_with(&body, n.to_string().as_bytes(), Some(&wrong_trailer(rng, right))),
        2 => seal_with(&body, &wrong_count(rng, n), Some(&wrong_trailer(rng, right))),
        3 => with_begin(rng, &body),
        5 => with_end(rng, draft.seal()),
        4 => with_bad_field(rng, draft).seal(),
        _ => without_start(rng, draft),
    }
}

/// Texts for tag 9 beside the right one.
fn wrong_count(rng: &mut Rng, n: usize) -> Vec<u8> {
    let text = match rng.below(10) {
        0 => (n + 1).to_string(),
        1 => (n - 1).to_string(),
        2 => format!("0{n}"),
        3 => format!("{n:05}"),
        4 => format!("{n:06}"),
        5 => String::from("0"),
        6 => format!("{n} "),
        7 => format!("1{n:05}"),
        8 => return bounds::near_miss(rng, n.to_string()),
        _ => String::from(*rng.pick(&["", "A", "-1", "99999", "100000", "65536", "4294967296"])),
    };
    text.into_bytes()
}

/// Texts for tag 10 beside the right one.
fn wrong_trailer(rng: &mut Rng, right: u8) -> Vec<u8> {
    let text = match rng.below(10) {
        0 | 1 => format!("{:03}", right.wrapping_add(rng.between(1, 255) as u8)),
        2 => format!("{:03}", u32::from(right) + 256),
        3 => format!("{right}"),
        4 => format!("{right:04}"),
        5 => format!("{right:02}"),
        6 => format!("{:03}", 999 - u32::from(right)),
        7 => return bounds::near_miss(rng, format!("{right:03}")),
        _ => String::from(*rng.pick(&["", "A00", "0 0", "-01", "00", "1", "000", "256", "999", "00A"])),
    };
    text.into_bytes()
}

/// Another begin string, or 8 and 9 in another way.
fn with_begin(rng: &mut Rng, body: &[u8]) -> Vec<u8> {
    let begin: &[u8] = rng.pick::<&[u8]>(&[
        b"8=FIX4.4\x01",
        b"8=FIX.4.2\x01",
        b"8=FIX.4.4 \x01",
        b"8=fix.4.4\x01",
        b"8=FIX.4\x01",
        b"",
        b"08=FIX.4.4\x01",
        b"8=FIX.4.4\x018=FIX.4.4\x01",
        b"49=A\x018=FIX.4.4\x01",
        b"9=5\x01",
        b"8FIX.4.4\x01",
        b"=FIX.4.4\x01",
    ]);
    let mut bytes = begin.to_vec();
    bytes.extend(format!("9={}\u{1}", body.len()).bytes());
    bytes.extend(body);
    end_with_sum(bytes)
}

/// Another tag than 10 at the end, or something after it.
fn with_end(rng: &mut Rng, mut bytes: Vec<u8>) -> Vec<u8> {
    let sum = bytes[bytes.len() - 4..].to_vec();
    bytes.truncate(bytes.len() - 7);
    let tag: &[u8] =
        rng.pick::<&[u8]>(&[b"11=", b"1=", b"010=", b"100=", b"10", b"=", b"35=", b"10=10=", b"58=x\x0110="]);
    bytes.extend(tag);
    bytes.extend(sum);
    if rng.chance(20) {
        bytes.extend(b"58=x\x01");
    }
    bytes
}

/// Puts the right 10 at the end.
fn end_with_sum(mut bytes: Vec<u8>) -> Vec<u8> {
    let trailer = format!("10={:03}\u{1}", sum(&bytes));
    bytes.extend(trailer.bytes());
    bytes
}

/// A field whose tag or value is none.
fn with_bad_field(rng: &mut Rng, draft: &Draft) -> Draft {
    let mut draft = draft.clone();
    let i = rng.below(draft.fields.len());
    match rng.below(5) {
        0 => draft.fields[i].1.clear(),
        1 => draft.fields[i].0 = format!("0{}", draft.fields[i].0),
        2 => draft.fields[i].0.clear(),
        3 => draft.fields.insert(i + 1, (near_tag(rng), b"1".to_vec())),
        _ => {
            let tags = [
                "0",
                "100000",
                "99999",
                "123456",
                "00001",
                "-5",
                "+5",
                "5 ",
                " 5",
                "A",
                "5.0",
                "4294967330",
                "65570",
                "131104",
                "\u{0}",
            ];
            let tag = String::from(*rng.pick(&tags));
            draft.fields.insert(i + 1, (tag, b"1".to_vec()));
        }
    }
    draft
}

/// A tag of 1 to 6 digits, one of them nearly so: a byte below 128.
fn near_tag(rng: &mut Rng) -> String {
    let n = rng.between(1, 6);
    let digits = values::whole(rng, n);
    bounds::near_miss_ascii(rng, digits)
}

/// A chain that doesn't begin 8, 9, 35, or is nothing but its ends.
fn without_start(rng: &mut Rng, draft: &Draft) -> Vec<u8> {
    let mut draft = draft.clone();
    match rng.below(4) {
        0 => drop(draft.fields.remove(0)),
        1 => draft.fields.rotate_left(1),
        2 => draft.fields.truncate(1),
        _ => draft.fields.clear(),
    }
    draft.seal()
}

/// Harms single bytes, then mends 10 or not.
pub fn to_bytes(rng: &mut Rng, bytes: &mut Vec<u8>) {
    for _ in 0..1 + rng.below(2) {
        harm_byte(rng, bytes);
    }
    if rng.chance(60) {
        mend_sum(bytes);
    }
}

fn harm_byte(rng: &mut Rng, bytes: &mut Vec<u8>) {
    if bytes.is_empty() {
        return;
    }
    let i = rng.below(bytes.len());
    let other = *rng.pick(&[SOH, b'=', b'0', b'1', b'9', b'.', b'-', b':', b' ', 0, 255, b'J']);
    match rng.below(9) {
        0 => bytes[i] ^= 1 << rng.below(8),
        1 => bytes[i] = other,
        2 => drop(bytes.remove(i)),
        3 => bytes.insert(i, other),
        4 => bytes.truncate(i),
        5 => bytes.insert(i, bytes[i]),
        6 => bytes.push(other),
        7 => drop(bytes.pop()),
        _ => {
            let j = rng.below(bytes.len());
            bytes.swap(i, j);
        }
    }
}

/// Makes the last three digits the right sum, where the message ends as one does.
pub fn mend_sum(bytes: &mut [u8]) {
    let n = bytes.len();
    if n > 7 && bytes.ends_with(&[SOH]) && bytes[n - 7..].starts_with(b"10=") {
        let right = format!("{:03}", sum(&bytes[..n - 7]));
        bytes[n - 4..n - 1].copy_from_slice(right.as_bytes());
    }
}

/// Lengthens a message by a passed-over field until it has `length` bytes.
pub fn lengthen(draft: &Draft, length: usize) -> Vec<u8> {
    let mut long = draft.clone();
    let i = 1.min(long.fields.len());
    long.fields.insert(i, field(58, "x"));
    for _ in 0..3 {
        let short_by = length.saturating_sub(long.seal().len());
        let padded = long.fields[i].1.len() + short_by;
        long.fields[i].1 = vec![b'x'; padded];
    }
    long.seal()
}
