//! What scripts lead J for all through.

use super::{Happening, Happenings};
use crate::answer::{GAP, LET_GO, OLD, REPLAY_BROKE, TAKEN};
use crate::book::{Action, Book, Entry, Step};
use crate::channel::Channel;
use crate::message::{Counted, Snapshot};

/// The numbers of the J for all in the queue.
pub fn numbers(channel: &Channel) -> impl Iterator<Item = u64> + '_ {
    channel.queue.iter().filter(|queued| queued.entry == Entry::EmptyAll).map(|queued| queued.number)
}

/// A counted message, if it holds a J for all.
pub fn count_message(before: &Channel, message: &Counted, answer: u64, counts: &mut Happenings) {
    if !message.entries.contains(&Entry::EmptyAll) {
        return;
    }
    match answer {
        OLD => return counts.count(Happening::AllOld),
        GAP => return counts.count(Happening::AllGap),
        _ => {}
    }
    let alone = message.entries.len() == 1;
    let waited = before.waiting() > 0;
    counts.count_if(alone && !waited, Happening::AllAlone);
    counts.count_if(alone && waited, Happening::AllAloneQueued);
    count_given(before, &message.entries, answer, counts);
    if waited {
        count_queued(before, &message.entries, answer, counts);
    }
}

/// What the queue comes to.
fn count_queued(before: &Channel, entries: &[Entry], answer: u64, counts: &mut Happenings) {
    let joins = |entry: &&Entry| before.instruments.iter().any(|it| entry.concerns(it.id));
    let joining = entries.iter().filter(joins).count();
    let (held, alone) = (before.queue.len() + joining, joining == 1);
    let let_go = answer == LET_GO;
    counts.count_if(held == 255, Happening::AllTo255);
    counts.count_if(held == 256 && alone, Happening::AllTo256);
    counts.count_if(held == 256 && !alone, Happening::AllTo256Beside);
    counts.count_if(held == 257 && let_go && alone, Happening::AllTo257);
    counts.count_if(held == 257 && let_go && !alone, Happening::AllTo257Beside);
}

/// What the entries of a message do, one after another: the instruments that were Live, each with
/// its book while it has not broken, and how its entries stand to a J for all.
struct Given {
    id: u64,
    book: Option<Book>,
    before: bool,
    behind: bool,
}

fn count_given(before: &Channel, entries: &[Entry], answer: u64, counts: &mut Happenings) {
    let waited = before.waiting() > 0;
    let queued = waited && answer != LET_GO;
    let live = before.instruments.iter().filter(|it| !it.waiting);
    let mut given: Vec<Given> = live
        .map(|it| Given { id: it.id, book: Some(it.book.clone()), before: false, behind: false })
        .collect();
    let (mut met, mut entry_since) = (false, false);
    for entry in entries {
        match entry {
            Entry::EmptyAll => {
                counts.count_if(met && entry_since, Happening::AllTwice);
                let broke = given.iter().any(|it| it.book.is_none());
                counts.count_if(broke && !waited, Happening::AllAfterBreak);
                counts.count_if(broke && queued, Happening::AllAfterBreakQueued);
                count_emptied(&mut given, waited, counts);
                (met, entry_since) = (true, false);
            }
            Entry::One { id, step } => {
                let Some(one) = given.iter_mut().find(|it| it.id == *id) else { continue };
                count_step(one, step, met, counts);
                entry_since = true;
            }
        }
    }
    counts.count_if(given.iter().any(|it| it.before && it.behind), Happening::AllBetween);
}

fn count_emptied(given: &mut [Given], waited: bool, counts: &mut Happenings) {
    let holds = |book: &Book| !book.bids.is_empty() || !book.offers.is_empty();
    let held = given.iter().filter(|it| it.book.as_ref().is_some_and(holds)).count();
    counts.count_if(held > 1, Happening::AllSeveral);
    counts.count_if(held > 0 && waited, Happening::AllWhileWaiting);
    counts.count_if(given.iter().any(|it| it.before), Happening::AllAfter);
    given.iter_mut().filter_map(|it| it.book.as_mut()).for_each(Book::empty);
}

fn count_step(one: &mut Given, step: &Step, met: bool, counts: &mut Happenings) {
    counts.count_if(met, Happening::AllBefore);
    one.before = one.before || !met;
    one.behind = one.behind || met;
    let Some(book) = &mut one.book else { return };
    let made = matches!(step, Step::Act(_, Action::New(..)));
    if book.take(step).is_err() {
        one.book = None;
        counts.count_if(met, Happening::AllBeforeBreak);
    } else {
        counts.count_if(met && made, Happening::AllBuilt);
    }
}

/// A W that is taken, or whose replay breaks, with a J for all in the queue.
pub fn count_snapshot(before: &Channel, snapshot: &Snapshot, answer: u64, counts: &mut Happenings) {
    if ![TAKEN, REPLAY_BROKE].contains(&answer) {
        return;
    }
    let first = before.instruments[0].id == snapshot.id;
    let above = numbers(before).any(|number| number > snapshot.last);
    counts.count_if(above, Happening::AllAboveS);
    counts.count_if(above && !first, Happening::AllAboveSLater);
    counts.count_if(numbers(before).any(|number| number == snapshot.last), Happening::AllAtS);
    counts.count_if(numbers(before).any(|number| number < snapshot.last), Happening::AllBelowS);
}
