//! The archive's store: the 7,168 numbers of docs/DESIGN.md, from a channel and back. Document 01
//! says when a store is unsound; where its numbers stand is the archive's own choice.

use crate::book::{Action, Book, Depth, Entry, Maker, Place, SideName, Step, ROOM};
use crate::calendar::{Date, Moment, TimeOfDay};
use crate::channel::{Channel, Queued, QUEUE_ROOM};
use crate::days::{civil, day_of, ALL_DAYS};
use crate::field::{LARGEST_ID, LARGEST_NUMBER, PRICE_END};
use crate::flip::{either, on, Flip};
use crate::instrument::Instrument;
use crate::loops::Loop;

/// The store's numbers.
pub const NUMBERS: usize = 7_168;
/// The number of this layout, and those of the ones before it, the first of them first.
pub const LAYOUT: u64 = 4_603;
pub const OLDER_LAYOUTS: [u64; 2] = [4_601, 4_602];

pub const AT_LAYOUT: usize = 0;
pub const AT_DEPTH: usize = 1;
pub const AT_FOLLOWED: usize = 2;
pub const AT_H: usize = 3;
pub const AT_B: usize = 4;
pub const AT_HEARD: usize = 5;
pub const AT_MARKS: usize = 6;
pub const AT_QUEUED: usize = 7;
/// The loop record: 911, how many W have come, the lowest 369, the instruments named (a bit each).
pub const AT_REPORTS: usize = 8;
pub const AT_COME: usize = 9;
pub const AT_LOWEST: usize = 10;
pub const AT_NAMED: usize = 11;
/// Numbers of the heading that are used.
pub const HEADING: usize = 12;
/// The most instruments that are followed.
pub const MOST_FOLLOWED: usize = 16;
/// Numbers of a place: price, size, by, more, moment.
pub const PLACE: usize = 5;
/// Numbers of a side that are used: how many are held, and 20 places.
pub const SIDE: usize = 1 + ROOM * PLACE;
/// Numbers of a queue entry that are used: message, instrument, what, action, place, and a place.
pub const SLOT: usize = 5 + PLACE;

/// What a queue entry is, beside 0 (bid) and 1 (offer): J of one instrument, or J for all, whose
/// instrument is then 0.
pub const J_OF_ONE: u64 = 2;
pub const J_FOR_ALL: u64 = 3;

/// Where the record of instrument `i` stands: SecurityID, reason.
pub fn record(i: usize) -> usize {
    32 + i * 8
}

/// Where the bids (0) or offers (1) of instrument `i` stand.
pub fn side(i: usize, offers: usize) -> usize {
    160 + (i * 2 + offers) * 128
}

/// Where queue entry `k` stands.
pub fn slot(k: usize) -> usize {
    4_256 + k * 11
}

/// One number that stands for a store; the driver's sum is the same.
pub fn sum(words: &[u64]) -> u64 {
    words.iter().fold(0, |sum: u64, word| {
        let sum = (sum ^ word).wrapping_mul(0x9e37_79b9_7f4a_7c15);
        sum ^ (sum >> 29)
    })
}

/// The store of a channel.
pub fn words(channel: &Channel) -> Vec<u64> {
    let mut words = vec![0; NUMBERS];
    words[..HEADING].copy_from_slice(&heading_words(channel));
    for (i, instrument) in channel.instruments.iter().enumerate() {
        words[record(i)] = instrument.id;
        words[record(i) + 1] = instrument.reason;
        put_side(&mut words[side(i, 0)..], &instrument.book.bids);
        put_side(&mut words[side(i, 1)..], &instrument.book.offers);
    }
    for (k, queued) in channel.queue.iter().enumerate() {
        // A flip may queue more than there are numbers for.
        let Some(words) = words.get_mut(slot(k)..slot(k) + SLOT) else { break };
        words.copy_from_slice(&queued_words(channel, queued));
    }
    words
}

fn heading_words(channel: &Channel) -> [u64; HEADING] {
    let marks = channel.instruments.iter().enumerate().map(|(i, x)| u64::from(x.waiting) << i).sum();
    let [reports, come, lowest, named] = loop_words(channel);
    [
        either(Flip::LayoutAsBefore, LAYOUT, OLDER_LAYOUTS[OLDER_LAYOUTS.len() - 1]),
        channel.depth as u64,
        channel.instruments.len() as u64,
        channel.h,
        channel.b,
        channel.heard.map_or(0, |heard| moment_word(heard.date, heard.time)),
        marks,
        channel.queue.len() as u64,
        reports,
        come,
        lowest,
        named,
    ]
}

/// The loop record; zeros where no loop runs.
fn loop_words(channel: &Channel) -> [u64; 4] {
    let Some(running) = &channel.running else { return [0; 4] };
    let bit = |(i, x): (usize, &Instrument)| u64::from(running.named.contains(&x.id)) << i;
    let named = channel.instruments.iter().enumerate().map(bit).sum();
    [running.reports, running.come, running.lowest, named]
}

fn put_side(words: &mut [u64], places: &[Place]) {
    words[0] = places.len() as u64;
    for (i, place) in places.iter().enumerate() {
        words[1 + i * PLACE..1 + (i + 1) * PLACE].copy_from_slice(&place_words(place));
    }
}

/// Price, size, order id or number of orders, moment.
pub fn place_words(place: &Place) -> [u64; PLACE] {
    let (by, more) = match &place.maker {
        Maker::Order(id) => {
            let bytes = id.as_bytes();
            let (first, rest) = bytes.split_at(bytes.len().min(8));
            (id_word(first), id_word(rest))
        }
        Maker::Orders(orders) => (*orders, 0),
    };
    [price_word(place.price), place.size, by, more, moment_word(place.date, place.time)]
}

/// 0, -1, 1, -2, 2, .. are 0, 1, 2, 3, 4, ..
fn price_word(price: i64) -> u64 {
    let twice = 2 * price.unsigned_abs();
    if price < 0 {
        twice - 1
    } else {
        twice
    }
}

/// Bytes as digits of 1 to 94, the first highest.
fn id_word(bytes: &[u8]) -> u64 {
    bytes.iter().fold(0, |word, byte| word * 94 + u64::from(byte - 32))
}

/// Milliseconds of a day in which every minute has 61 seconds.
const DAY: u64 = 24 * 60 * 61 * 1_000;

fn moment_word(date: Date, time: TimeOfDay) -> u64 {
    let day = day_of(i64::from(date.year), i64::from(date.month), i64::from(date.day)) as u64;
    let second = u64::from((time.hour * 60 + time.minute) * 61 + time.second);
    day * DAY + second * 1_000 + u64::from(time.milli)
}

fn queued_words(channel: &Channel, queued: &Queued) -> [u64; SLOT] {
    let who = match queued.entry {
        Entry::One { id, .. } => channel.instruments.iter().position(|it| it.id == id).expect("followed"),
        Entry::EmptyAll => 0,
    };
    let (what, action, position, place) = match &queued.entry {
        Entry::One { step: Step::Act(name, action), .. } => {
            let (number, position, place) = action_words(action);
            (*name as u64, number, position, place)
        }
        Entry::One { step: Step::Empty, .. } => (J_OF_ONE, 0, 0, [0; PLACE]),
        Entry::EmptyAll => (J_FOR_ALL, 0, 0, [0; PLACE]),
    };
    let who = who as u64;
    let mut words = [queued.number, who, what, action, position, 0, 0, 0, 0, 0];
    words[5..].copy_from_slice(&place);
    words
}

/// An action's number (279), its position, and its place or zeros.
fn action_words(action: &Action) -> (u64, u64, [u64; PLACE]) {
    match action {
        Action::New(p, place) => (0, *p as u64, place_words(place)),
        Action::Change(p, place) => (1, *p as u64, place_words(place)),
        Action::Delete(p) => (2, *p as u64, [0; PLACE]),
        Action::DeleteThru(p) => (3, *p as u64, [0; PLACE]),
        Action::DeleteFrom(p) => (4, *p as u64, [0; PLACE]),
    }
}

/// The channel of a store; none where it is unsound.
pub fn read(store: &[u64]) -> Option<Channel> {
    let channel = read_channel(store)?;
    let mut words = words(&channel);
    pass_flipped(&mut words, store);
    // An unused place, queue entry or instrument is zero, as is every spare number.
    (words == store[..NUMBERS] || on(Flip::UnsoundUnused)).then_some(channel)
}

/// Takes over the numbers that a flip passes.
fn pass_flipped(words: &mut [u64], store: &[u64]) {
    let taken: [Flip; OLDER_LAYOUTS.len()] = [Flip::Unsound4601, Flip::Unsound4602];
    for (flip, older) in taken.into_iter().zip(OLDER_LAYOUTS) {
        if on(flip) && store[AT_LAYOUT] == older {
            words[AT_LAYOUT] = older;
        }
    }
    for at in (0..QUEUE_ROOM).map(slot) {
        if words[at + 2] == J_FOR_ALL {
            words[at + 1] = either(Flip::UnsoundForAllIndex, 0, store[at + 1]);
            words[at + 2] = either(Flip::UnsoundWhat4, J_FOR_ALL, store[at + 2]);
        }
    }
    if on(Flip::UnsoundLoopNamed) || on(Flip::UnsoundRepeats) {
        words[AT_NAMED] = store[AT_NAMED];
    }
    if on(Flip::UnsoundLoopRest) && words[AT_REPORTS] == 0 {
        words[AT_REPORTS..HEADING].copy_from_slice(&store[AT_REPORTS..HEADING]);
    }
}

/// The channel of numbers that are in their ranges and fit together.
fn read_channel(store: &[u64]) -> Option<Channel> {
    let depth = match store[AT_DEPTH] {
        0 => Depth::Order,
        1 => Depth::Price,
        _ => return None,
    };
    let (h, b) = (store[AT_H], store[AT_B]);
    if h > LARGEST_NUMBER || (b > h && !on(Flip::UnsoundBAboveH)) {
        return None;
    }
    let heard = if h > 0 || on(Flip::UnsoundHeard) { Some(read_moment(store[AT_HEARD])?) } else { None };
    let instruments = read_instruments(store, depth)?;
    let queue = read_queue(store, depth, &instruments)?;
    let none_waits = instruments.iter().all(|instrument| !instrument.waiting);
    let behind = b != h && !on(Flip::UnsoundBaseBehind);
    if none_waits && (!queue.is_empty() || behind) {
        return None;
    }
    let running = read_loop(store, &instruments)?;
    Some(Channel { depth, h, b, heard, instruments, queue, running })
}

/// The loop record: 911 is 2 to 4,294,967,295, fewer than 911 W have come, but at least one, and
/// the lowest 369 is in its range. `Some(None)` where no loop runs.
fn read_loop(store: &[u64], instruments: &[Instrument]) -> Option<Option<Loop>> {
    let (reports, come, lowest) = (store[AT_REPORTS], store[AT_COME], store[AT_LOWEST]);
    if reports == 0 {
        // The three others must then be zero too, which the store's own words tell.
        return Some(None);
    }
    let most_reports = either(Flip::UnsoundLoopReports, LARGEST_NUMBER, LARGEST_NUMBER + 1);
    let least_come = either(Flip::UnsoundLoopNoneCome, 1, 0);
    let most_come = either(Flip::UnsoundLoopWhole, reports - 1, reports);
    let most_lowest = either(Flip::UnsoundLoopLowest, LARGEST_NUMBER, LARGEST_NUMBER + 1);
    let in_range =
        reports <= most_reports && (least_come..=most_come).contains(&come) && lowest <= most_lowest;
    let named = |(i, _): &(usize, &Instrument)| store[AT_NAMED] >> i & 1 == 1;
    let named = instruments.iter().enumerate().filter(named).map(|(_, x)| x.id).collect();
    in_range.then_some(Some(Loop { reports, come, lowest, named }))
}

/// 1 to 16 instruments that don't repeat, with a mark each.
fn read_instruments(store: &[u64], depth: Depth) -> Option<Vec<Instrument>> {
    let followed = count(store[AT_FOLLOWED], MOST_FOLLOWED)?;
    let marks = store[AT_MARKS];
    if followed < 1 || marks >> followed != 0 {
        return None;
    }
    let read = |i| read_instrument(store, depth, i, marks >> i & 1 == 1);
    let instruments: Vec<Instrument> = (0..followed).map(read).collect::<Option<_>>()?;
    let repeats = (1..followed).any(|i| instruments[..i].iter().any(|x| x.id == instruments[i].id));
    (!repeats || on(Flip::UnsoundRepeats)).then_some(instruments)
}

/// A Waiting instrument holds no places.
fn read_instrument(store: &[u64], depth: Depth, i: usize, waiting: bool) -> Option<Instrument> {
    let (id, reason) = (store[record(i)], store[record(i) + 1]);
    let bids = read_side(&store[side(i, 0)..], depth)?;
    let offers = read_side(&store[side(i, 1)..], depth)?;
    let in_range = (1..=LARGEST_ID).contains(&id) && reason <= either(Flip::UnsoundReason, 2, 3);
    let bare = (bids.is_empty() && offers.is_empty()) || on(Flip::UnsoundPlaces);
    let book = Book { bids, offers };
    (in_range && (bare || !waiting)).then_some(Instrument { id, waiting, reason, book })
}

/// A count of at most `most`.
fn count(word: u64, most: usize) -> Option<usize> {
    (word <= most as u64).then_some(word as usize)
}

fn read_side(words: &[u64], depth: Depth) -> Option<Vec<Place>> {
    let held = count(words[0], ROOM)?;
    (0..held).map(|i| read_place(&words[1 + i * PLACE..], depth)).collect()
}

fn read_place(words: &[u64], depth: Depth) -> Option<Place> {
    let moment = read_moment(words[4])?;
    let in_range = (1..=999_999_999_999).contains(&words[1]);
    let place = Place {
        price: read_price(words[0])?,
        size: words[1],
        maker: read_maker(words[2], words[3], depth)?,
        date: moment.date,
        time: moment.time,
    };
    in_range.then_some(place)
}

/// 9 digits and 8 decimals.
fn read_price(word: u64) -> Option<i64> {
    let half = (word / 2) as i64;
    let price = if word % 2 == 1 { -half - 1 } else { half };
    let end =
        either(Flip::PriceAsBefore, either(Flip::UnsoundPrice, PRICE_END, PRICE_END * 10), PRICE_END / 10);
    (price.unsigned_abs() < end).then_some(price)
}

/// An order id of 1 to 16 bytes, or a number of orders of 1 to 65,535.
fn read_maker(by: u64, more: u64, depth: Depth) -> Option<Maker> {
    if depth == Depth::Price {
        return ((1..=65_535).contains(&by) && more == 0).then_some(Maker::Orders(by));
    }
    let (first, rest) = (id_text(by), id_text(more));
    let in_range = (1..=8).contains(&first.len()) && rest.len() <= 8;
    let joined = rest.is_empty() || first.len() == 8;
    (in_range && joined).then_some(Maker::Order(first + &rest))
}

/// The bytes of a word of an order id.
fn id_text(mut word: u64) -> String {
    let mut text = String::new();
    while word > 0 {
        text.insert(0, char::from(33 + ((word - 1) % 94) as u8));
        word = (word - 1) / 94;
    }
    text
}

fn read_moment(word: u64) -> Option<Moment> {
    let (day, in_day) = (word / DAY, word % DAY);
    if day >= either(Flip::UnsoundMoment, ALL_DAYS as u64, ALL_DAYS as u64 + 1) {
        return None;
    }
    let (year, month, day) = civil(day as i64);
    let (seconds, milli) = ((in_day / 1_000) as u32, (in_day % 1_000) as u32);
    let (minutes, second) = (seconds / 61, seconds % 61);
    Some(Moment {
        date: Date { year: year as u32, month: month as u32, day: day as u32 },
        time: TimeOfDay { hour: minutes / 60, minute: minutes % 60, second, milli },
    })
}

/// At most 256 entries; their numbers stay in B+1 to H and don't fall.
fn read_queue(store: &[u64], depth: Depth, instruments: &[Instrument]) -> Option<Vec<Queued>> {
    let held = count(store[AT_QUEUED], QUEUE_ROOM)?;
    let read = |k| read_queued(&store[slot(k)..], depth, instruments);
    let queue: Vec<Queued> = (0..held).map(read).collect::<Option<_>>()?;
    let inside = queue.iter().all(|queued| queued.number > store[AT_B] && queued.number <= store[AT_H]);
    let falls = (1..held).any(|k| queue[k].number < queue[k - 1].number);
    let inside = inside || on(Flip::UnsoundOutside);
    (inside && (!falls || on(Flip::UnsoundFalls))).then_some(queue)
}

fn read_queued(words: &[u64], depth: Depth, instruments: &[Instrument]) -> Option<Queued> {
    let instrument = instruments.get(usize::try_from(words[1]).ok()?)?;
    let of_one = |step| Entry::One { id: instrument.id, step };
    let entry = match words[2] {
        0 => of_one(Step::Act(SideName::Bid, read_action(words, depth)?)),
        1 => of_one(Step::Act(SideName::Offer, read_action(words, depth)?)),
        J_OF_ONE => of_one(Step::Empty),
        J_FOR_ALL if on(Flip::UnsoundForAll) => return None,
        J_FOR_ALL if words[1] == 0 || on(Flip::UnsoundForAllIndex) => Entry::EmptyAll,
        4 if on(Flip::UnsoundWhat4) => Entry::EmptyAll,
        _ => return None,
    };
    Some(Queued { number: words[0], entry })
}

/// 279 is 0 to 4, 290 is 1 to 65,535.
fn read_action(words: &[u64], depth: Depth) -> Option<Action> {
    let p = count(words[4], 65_535).filter(|p| *p >= 1)?;
    Some(match words[3] {
        0 => Action::New(p, read_place(&words[5..], depth)?),
        1 => Action::Change(p, read_place(&words[5..], depth)?),
        2 => Action::Delete(p),
        3 => Action::DeleteThru(p),
        4 => Action::DeleteFrom(p),
        _ => return None,
    })
}
