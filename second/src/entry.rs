//! The entries of a group: where their tags may stand and what is read of them.

use crate::book::{Action, Depth, Entry, Maker, Place, SideName, Step};
use crate::calendar::{Date, TimeOfDay};
use crate::field;
use crate::flip::{either, on, Flip};
use crate::frame::Field;

/// The tags that document 01 names under Fields.
const NAMED: [u32; 17] = [34, 52, 48, 22, 207, 369, 911, 268, 279, 269, 270, 271, 37, 346, 272, 273, 290];
/// The tags of an entry of W.
pub const W_ENTRY: [u32; 8] = [269, 270, 271, 37, 346, 272, 273, 290];
/// The tags of an entry of X.
pub const X_ENTRY: [u32; 12] = [269, 270, 271, 37, 346, 272, 273, 290, 279, 48, 22, 207];

/// A named tag must not stand outside its place, nor twice in it.
pub fn in_place(fields: &[Field], allowed: &[u32]) -> Option<()> {
    let looked_for = &NAMED[either(Flip::HeadTagsFree, 0, 2)..];
    let named: Vec<u32> = fields.iter().map(|f| f.0).filter(|tag| looked_for.contains(tag)).collect();
    let inside = named.iter().all(|tag| allowed.contains(tag));
    let once = (1..named.len()).all(|i| !named[..i].contains(&named[i]));
    (inside && either(Flip::TwiceInEntry, once, true)).then_some(())
}

/// The value of a tag in these fields, if it stands there.
pub fn value<'a>(fields: &[Field<'a>], tag: u32) -> Option<&'a [u8]> {
    fields.iter().find(|field| field.0 == tag).map(|field| field.1)
}

/// The group cut into entries: each begins with `opener`, exactly as many as 268 says.
pub fn cut<'a, 'b>(
    group: &'b [Field<'a>],
    opener: u32,
    allowed: &[u32],
    count: u64,
) -> Option<Vec<&'b [Field<'a>]>> {
    let starts: Vec<usize> = (0..group.len()).filter(|i| group[*i].0 == opener).collect();
    let found = starts.len() as u64;
    if found != either(Flip::MoreEntries, count, count.max(found)) {
        return None;
    }
    let before = &group[..*starts.first().unwrap_or(&group.len())];
    in_place(before, either(Flip::BeforeFirstEntry, &[], allowed))?;
    let ends = starts.iter().skip(1).copied().chain([group.len()]);
    let entries: Vec<_> = starts.iter().zip(ends).map(|(start, end)| &group[*start..end]).collect();
    entries.iter().try_for_each(|entry| in_place(entry, allowed))?;
    Some(entries)
}

/// The instrument of these fields: 48, 22 = 8, and 207 = BVMF or absent.
pub fn instrument(fields: &[Field]) -> Option<u64> {
    let id = field::security(value(fields, 48)?)?;
    let source = either(Flip::SourceNotCompared, value(fields, 22)? == b"8", true);
    let exchange = value(fields, 207).unwrap_or(b"BVMF") == b"BVMF";
    (source && either(Flip::ExchangeNotCompared, exchange, true)).then_some(id)
}

/// 290: 1 to 65,535.
pub fn position(fields: &[Field]) -> Option<usize> {
    let most = either(Flip::PositionPastEnd, 65_535, 65_536);
    field::whole(value(fields, 290)?, 1, most).map(|position| position as usize)
}

/// 37 on an order-depth channel, 346 on a price-depth one.
fn maker(fields: &[Field], depth: Depth) -> Option<Maker> {
    match depth {
        Depth::Order => field::name(value(fields, 37)?).map(Maker::Order),
        Depth::Price => field::whole(value(fields, 346)?, least_orders(), most_orders()).map(Maker::Orders),
    }
}

fn least_orders() -> u64 {
    either(Flip::OrdersZero, 1, 0)
}

fn most_orders() -> u64 {
    either(Flip::OrdersPastEnd, 65_535, 65_536)
}

/// 271: 1 to 999,999,999,999.
fn size(fields: &[Field]) -> Option<u64> {
    let most = either(Flip::SizePastEnd, 999_999_999_999, 1_000_000_000_000);
    field::whole(value(fields, 271)?, either(Flip::SizeZero, 1, 0), most)
}

/// New, change and all W bids and offers need 270, 271, 272, 273, and 37 or 346.
pub fn place(fields: &[Field], depth: Depth) -> Option<Place> {
    Some(Place {
        price: field::price(value(fields, 270)?)?,
        size: size(fields)?,
        maker: maker(fields, depth)?,
        date: Date::read(value(fields, 272)?)?,
        time: TimeOfDay::read(value(fields, 273)?)?,
    })
}

/// 269 = 0 (bid) or 1 (offer).
pub fn side(kind: &[u8]) -> Option<SideName> {
    match kind {
        b"0" => Some(SideName::Bid),
        b"1" => Some(SideName::Offer),
        _ => None,
    }
}

/// An entry of X: what it does to a book, or `Some(None)` where it is passed over.
pub fn incremental(fields: &[Field], depth: Depth) -> Option<Option<Entry>> {
    let kind = value(fields, 269)?;
    let action = field::whole(value(fields, 279)?, 0, either(Flip::ActionTo5, 4, 5));
    if side(kind).is_none() && kind != b"J" {
        if on(Flip::ExchangeAlwaysRead) && value(fields, 207).unwrap_or(b"BVMF") != b"BVMF" {
            return None;
        }
        return either(Flip::OtherActionFree, action.is_some(), true).then_some(None);
    }
    if value(fields, 48).is_none() {
        return without_48(fields, kind, action);
    }
    let id = match kind {
        b"J" => instrument_of_j(fields)?,
        _ => instrument(fields)?,
    };
    if on(Flip::JNeedsPosition) {
        position(fields)?;
    }
    let step = match side(kind) {
        Some(name) => Step::Act(name, act(fields, action?, depth)?),
        None => action.map(|_| Step::Empty)?,
    };
    Some(Some(Entry::One { id, step }))
}

/// The instrument of a J with 48: as any entry's.
fn instrument_of_j(fields: &[Field]) -> Option<u64> {
    if on(Flip::JWithout22) && value(fields, 22).is_none() {
        return field::security(value(fields, 48)?);
    }
    instrument(fields).filter(|_| either(Flip::JRefuses207, true, value(fields, 207).is_none()))
}

/// A bid or an offer needs 48. A J without 48 speaks of all instruments (02, K4): its 279 is checked
/// as every J's, and 22 and 207 must be absent, whatever their values.
fn without_48(fields: &[Field], kind: &[u8], action: Option<u64>) -> Option<Option<Entry>> {
    if kind != b"J" {
        return (action.is_some() && on(Flip::SideWithout48Passed)).then_some(None);
    }
    let (source, exchange) = (value(fields, 22), value(fields, 207));
    let source_free = on(Flip::AllSourceStands) || (source == Some(b"8") && on(Flip::AllSource8Stands));
    let exchange_free = on(Flip::AllExchangeStands) || (exchange == Some(b"BVMF") && on(Flip::AllBvmfStands));
    let (source_good, exchange_good) = (source.is_none() || source_free, exchange.is_none() || exchange_free);
    let alone = either(Flip::AllOneStands, source_good && exchange_good, source_good || exchange_good);
    let checked = either(Flip::AllActionFree, action.is_some(), true);
    let placed = either(Flip::AllNeedsPosition, true, position(fields).is_some());
    let read = either(Flip::AllPassedOver, Some(Entry::EmptyAll), None);
    (alone && checked && placed && !on(Flip::AllRefused)).then_some(read)
}

/// 279: 0 new, 1 change, 2 delete, 3 delete thru, 4 delete from.
fn act(fields: &[Field], action: u64, depth: Depth) -> Option<Action> {
    let position = position(fields)?;
    if action == 2 && on(Flip::DeleteNeedsPlace) {
        place(fields, depth)?;
    }
    Some(match action {
        0 => Action::New(position, place(fields, depth)?),
        1 => Action::Change(position, place(fields, depth)?),
        2 => Action::Delete(position),
        3 => Action::DeleteThru(position),
        _ => Action::DeleteFrom(position),
    })
}
