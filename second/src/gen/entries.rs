//! The fields of heads, entries and snapshots as an exchange may write them.

use super::bounds;
use super::draft::{field, Draft, DraftField};
use super::exchange::{Row, TrueBook};
use super::rng::Rng;
use super::values::{self, OTHER_TAGS};

/// An entry of X in the making.
pub enum Entry {
    Side {
        id: u64,
        side: usize,
        action: u32,
        position: usize,
        row: Row,
    },
    Empty {
        id: u64,
    },
    /// J without 48.
    EmptyAll,
    PassedOver {
        id: u64,
    },
}

/// A field that is passed over.
fn other(rng: &mut Rng) -> DraftField {
    field(*rng.pick(&OTHER_TAGS), values::noise(rng))
}

/// Now and then up to `most` passed-over fields, anywhere but before the first field.
pub fn sprinkle(rng: &mut Rng, fields: &mut Vec<DraftField>, most: usize) {
    if rng.chance(15) {
        for _ in 0..=rng.below(most) {
            let i = 1 + rng.below(fields.len());
            fields.insert(i, other(rng));
        }
    }
}

/// 34, 52, mostly 49 and 56, in any order.
pub fn head(rng: &mut Rng, number: u64, time: &str) -> Vec<DraftField> {
    let mut fields = vec![field(34, number.to_string()), field(52, time)];
    if rng.chance(70) {
        fields.insert(0, field(49, "SHED"));
        fields.insert(1, field(56, "YARD"));
    }
    if rng.chance(30) {
        rng.shuffle(&mut fields);
    }
    fields
}

/// 268, now and then with a passed-over field after it.
pub fn open_group(rng: &mut Rng, fields: &mut Vec<DraftField>, count: usize) {
    fields.push(field(268, count.to_string()));
    if rng.chance(8) {
        fields.push(other(rng));
    }
}

/// Named tags as types 0, f, y and B may carry them unread, 268 among them, some twice.
pub fn unread_group(rng: &mut Rng) -> Vec<DraftField> {
    let tags: [u32; 12] = [268, 268, 279, 269, 48, 22, 207, 369, 911, 270, 290, 346];
    let some = |rng: &mut Rng| {
        let tag = *rng.pick(&tags);
        field(tag, if rng.chance(50) { values::good(rng, tag) } else { values::noise(rng) })
    };
    (0..1 + rng.below(4)).map(|_| some(rng)).collect()
}

/// 48 and 22, and 207 or not.
fn instrument(rng: &mut Rng, id: u64) -> Vec<DraftField> {
    let mut fields = vec![field(48, id.to_string()), field(22, "8")];
    if rng.chance(50) {
        fields.push(field(207, "BVMF"));
    }
    fields
}

/// 270, 271, 37 or 346, 272, 273; the maker that this depth doesn't read may stand too.
fn row_fields(rng: &mut Rng, row: &Row, depth: u64) -> Vec<DraftField> {
    let mut fields = vec![field(270, &row.price), field(271, &row.size)];
    if depth == 0 || rng.chance(15) {
        let unread = depth != 0 && rng.chance(50);
        fields.push(field(37, if unread { bounds::bound(rng, 37) } else { row.order.clone().into_bytes() }));
    }
    if depth == 1 || rng.chance(15) {
        let unread = depth != 1 && rng.chance(50);
        let value = if unread { bounds::bound(rng, 346) } else { row.orders.clone().into_bytes() };
        fields.push(field(346, if value.is_empty() { b"x".to_vec() } else { value }));
    }
    fields.push(field(272, &row.date));
    fields.push(field(273, &row.time));
    fields
}

/// Now and then values that the entry doesn't need, good or not.
fn unread(rng: &mut Rng, fields: &mut Vec<DraftField>, tags: &[u32]) {
    for tag in tags {
        if rng.chance(8) {
            let value = if rng.chance(50) { bounds::bound(rng, *tag) } else { values::noise(rng) };
            fields.push(field(*tag, if value.is_empty() { b"x".to_vec() } else { value }));
        }
    }
}

impl Entry {
    /// The entry's fields: 279 first, the others mostly in their order.
    pub fn fields(&self, rng: &mut Rng, depth: u64) -> Vec<DraftField> {
        let mut action = 0;
        let mut rest = match self {
            Entry::Side { id, side, action: a, position, row } => {
                action = *a;
                side_fields(rng, depth, (*id, *side, action, *position), row)
            }
            Entry::Empty { id } => {
                action = rng.between(0, 4) as u32;
                let told = instrument(rng, *id);
                empty_fields(rng, told)
            }
            Entry::EmptyAll => {
                action = rng.between(0, 4) as u32;
                empty_fields(rng, Vec::new())
            }
            Entry::PassedOver { id } => passed_over(rng, *id, true),
        };
        if rng.chance(25) {
            rng.shuffle(&mut rest);
        }
        rest.insert(0, field(279, action.to_string()));
        sprinkle(rng, &mut rest, 3);
        rest
    }
}

/// A J with what tells its instrument, or with nothing that does.
fn empty_fields(rng: &mut Rng, told: Vec<DraftField>) -> Vec<DraftField> {
    let mut fields = vec![field(269, "J")];
    fields.extend(told);
    unread(rng, &mut fields, &[270, 271, 37, 346, 272, 273, 290]);
    fields
}

/// A bid or an offer: new and change carry a place, the deletes may.
fn side_fields(rng: &mut Rng, depth: u64, at: (u64, usize, u32, usize), row: &Row) -> Vec<DraftField> {
    let (id, side, action, position) = at;
    let mut fields = vec![field(269, side.to_string())];
    fields.extend(instrument(rng, id));
    fields.push(field(290, position.to_string()));
    if action < 2 {
        fields.extend(row_fields(rng, row, depth));
    } else {
        unread(rng, &mut fields, &[270, 271, 37, 346, 272, 273]);
    }
    fields
}

/// An entry of another kind, such as a trade, with whatever values; its first field is 269.
fn passed_over(rng: &mut Rng, id: u64, in_x: bool) -> Vec<DraftField> {
    let kinds: &[&str] = if in_x {
        &["2", "4", "7", "B", "c", "v", "00", "01", "j"]
    } else {
        &["2", "4", "J", "J", "c", "00", "01"]
    };
    let mut fields = vec![field(269, rng.pick(kinds))];
    if in_x && rng.chance(70) {
        fields.push(field(48, id.to_string()));
        unread(rng, &mut fields, &[22, 207]);
    }
    unread(rng, &mut fields, &[270, 271, 37, 346, 272, 273, 290]);
    fields
}

/// What a snapshot says beside its book.
pub struct SnapshotHead {
    pub number: u64,
    pub time: String,
    pub id: u64,
    pub last: u64,
    pub reports: u64,
}

/// A W with this book.
pub fn snapshot(rng: &mut Rng, head: &SnapshotHead, book: &TrueBook, depth: u64) -> Draft {
    let mut fields = self::head(rng, head.number, &head.time);
    fields.extend(instrument(rng, head.id));
    fields.push(field(369, head.last.to_string()));
    fields.push(field(911, head.reports.to_string()));
    if rng.chance(30) {
        rng.shuffle(&mut fields);
    }
    let mut draft = Draft::new("W");
    draft.fields.extend(fields);
    sprinkle(rng, &mut draft.fields, 2);
    let entries = book_entries(rng, book, depth);
    open_group(rng, &mut draft.fields, entries.len());
    draft.fields.extend(entries.into_iter().flatten());
    draft
}

/// The entries of a book: positions in turn on each side, the sides mixed now and then.
fn book_entries(rng: &mut Rng, book: &TrueBook, depth: u64) -> Vec<Vec<DraftField>> {
    let mixed = rng.chance(40);
    let held = [book.sides[0].len(), book.sides[1].len()];
    let mut spare = 64_usize.saturating_sub(held[0] + held[1]);
    let mut next = [0, 0];
    let mut entries = Vec::new();
    while next != held {
        if mixed && spare > 0 && rng.chance(8) {
            entries.push(passed_over(rng, 1, false));
            spare -= 1;
        }
        let offer = next[0] == held[0] || (mixed && next[1] < held[1] && rng.chance(50));
        let side = usize::from(offer);
        entries.push(place_entry(rng, depth, side, next[side] + 1, &book.sides[side][next[side]]));
        next[side] += 1;
    }
    entries
}

/// A bid or offer of a W: 269 first.
fn place_entry(rng: &mut Rng, depth: u64, side: usize, position: usize, row: &Row) -> Vec<DraftField> {
    let mut rest = row_fields(rng, row, depth);
    rest.push(field(290, position.to_string()));
    if rng.chance(15) {
        rng.shuffle(&mut rest);
    }
    rest.insert(0, field(269, side.to_string()));
    sprinkle(rng, &mut rest, 2);
    rest
}
