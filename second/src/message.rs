//! A message as read: its type (13), the fields before the group and the entries (14).

use crate::answer::{FIELDS, TYPE};
use crate::book::{Book, Depth, Entry, SideName};
use crate::calendar::Moment;
use crate::entry;
use crate::field::{self, LARGEST_NUMBER};
use crate::flip::{either, on, Flip};
use crate::frame::{self, Field};

/// A message that carries a number and a time, with the entries that are read.
#[derive(Clone, Debug)]
pub struct Counted {
    pub number: u64,
    pub time: Moment,
    pub entries: Vec<Entry>,
}

/// A W: the book of one instrument after the message numbered `last` (369).
#[derive(Clone, Debug)]
pub struct Snapshot {
    pub number: u64,
    pub time: Moment,
    pub id: u64,
    pub last: u64,
    /// 911, how many W its loop has.
    pub reports: u64,
    pub book: Book,
}

#[derive(Clone, Debug)]
pub enum Message {
    Counted(Counted),
    Snapshot(Snapshot),
}

/// Reads a message, or says 11 to 14.
pub fn read(message: &[u8], depth: Depth) -> Result<Message, u64> {
    let fields = frame::open(message)?;
    let kind = fields[2].1;
    let middle = &fields[3..fields.len() - 1];
    if kind == b"0" && on(Flip::HeartbeatNotRead) {
        return Err(TYPE);
    }
    let read = match kind {
        b"X" => read_x(middle, depth).map(Message::Counted),
        b"W" => read_w(middle, depth).map(Message::Snapshot),
        b"0" | b"f" | b"y" | b"B" => read_other(middle).map(Message::Counted),
        _ => return Err(TYPE),
    };
    read.filter(|_| ends_stand_once(middle)).ok_or(FIELDS)
}

/// The W that these bytes are, if they are a well-formed one.
pub fn snapshot_of(bytes: &[u8], depth: Depth) -> Option<Snapshot> {
    match read(bytes, depth) {
        Ok(Message::Snapshot(snapshot)) => Some(snapshot),
        _ => None,
    }
}

/// The counted message that these bytes are, if they are a well-formed one.
pub fn counted_of(bytes: &[u8], depth: Depth) -> Option<Counted> {
    match read(bytes, depth) {
        Ok(Message::Counted(counted)) => Some(counted),
        _ => None,
    }
}

/// 8, 9, 35 and 10 stand once.
fn ends_stand_once(middle: &[Field]) -> bool {
    !middle.iter().any(|field| [8, 9, 35, 10].contains(&field.0)) || on(Flip::EndsTwice)
}

/// What stands before 268, how many entries 268 says, and the group that follows it.
struct Parts<'a, 'b> {
    head: &'b [Field<'a>],
    count: u64,
    group: &'b [Field<'a>],
}

/// X and W need 268, 0 to 64; the group follows it.
fn at_268<'a, 'b>(middle: &'b [Field<'a>]) -> Option<Parts<'a, 'b>> {
    let place = middle.iter().position(|field| field.0 == 268)?;
    let count = field::whole(middle[place].1, 0, either(Flip::EntriesTo65, 64, 65))?;
    Some(Parts { head: &middle[..place], count, group: &middle[place + 1..] })
}

/// All types need 34 and 52, before any 268.
fn number_and_time(head: &[Field]) -> Option<(u64, Moment)> {
    let number = field::sequence(entry::value(head, 34)?)?;
    let time = Moment::read(entry::value(head, 52)?)?;
    Some((number, time))
}

/// Types 0, f, y, B only carry a number and a time: 34 and 52 once each, before any 268.
fn read_other(middle: &[Field]) -> Option<Counted> {
    let head = middle.split(|field| field.0 == 268).next()?;
    let (number, time) = number_and_time(head)?;
    let once = |tag| middle.iter().filter(|field| field.0 == tag).count() == 1;
    if !once(52) || !(once(34) || on(Flip::OtherTypesFree)) {
        return None;
    }
    Some(Counted { number, time, entries: Vec::new() })
}

/// X: 34, 52, then 268 and its group.
fn read_x(middle: &[Field], depth: Depth) -> Option<Counted> {
    let Parts { head, count, group } = at_268(middle)?;
    entry::in_place(head, &[34, 52])?;
    let (number, time) = number_and_time(head)?;
    let cut = entry::cut(group, 279, &entry::X_ENTRY, count)?;
    let read: Option<Vec<_>> = cut.iter().map(|fields| entry::incremental(fields, depth)).collect();
    let entries = read?.into_iter().flatten().collect();
    Some(Counted { number, time, entries })
}

/// W: 34, 52, 48, 22, 369, 911 and perhaps 207, then 268 and its group.
fn read_w(middle: &[Field], depth: Depth) -> Option<Snapshot> {
    let Parts { head, count, group } = at_268(middle)?;
    entry::in_place(head, &[34, 52, 48, 22, 207, 369, 911])?;
    let (number, time) = number_and_time(head)?;
    let id = entry::instrument(head)?;
    let most = either(Flip::LastPastEnd, LARGEST_NUMBER, LARGEST_NUMBER + 1);
    let last = field::whole(entry::value(head, 369)?, 0, most)?;
    let most = either(Flip::ReportsPastEnd, LARGEST_NUMBER, LARGEST_NUMBER + 1);
    let reports = field::whole(entry::value(head, 911)?, either(Flip::ReportsZero, 1, 0), most)?;
    let cut = entry::cut(group, 269, &entry::W_ENTRY, count)?;
    let book = read_book(&cut, depth)?;
    Some(Snapshot { number, time, id, last, reports, book })
}

/// In W the positions on each side run 1, 2, 3 in the order written; J and others are passed over.
fn read_book(entries: &[&[Field]], depth: Depth) -> Option<Book> {
    let mut book = Book::default();
    for fields in entries {
        let kind = entry::value(fields, 269)?;
        if kind == b"J" && on(Flip::JEmptiesInW) {
            book.empty();
        }
        let Some(name) = entry::side(kind) else { continue };
        let side = match name {
            SideName::Bid => &mut book.bids,
            SideName::Offer => &mut book.offers,
        };
        let in_turn = entry::position(fields)? == side.len() + 1;
        let over = on(Flip::OverBeforePositions) && entries.len() > 40;
        if !in_turn && !over && !on(Flip::PositionsNotChecked) {
            return None;
        }
        side.push(entry::place(fields, depth)?);
    }
    Some(book)
}
