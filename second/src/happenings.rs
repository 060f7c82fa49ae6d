//! What scripts lead loops of snapshots and J for all through, counted. A call is looked at from
//! outside: what the store held before it, the message, and what the store holds after it.

mod for_all;

use std::collections::BTreeSet;

use crate::answer::*;
use crate::channel::Channel;
use crate::instrument::Instrument;
use crate::keeper::Keeper;
use crate::loops::Loop;
use crate::message::{counted_of, snapshot_of, Snapshot};
use crate::run::run_plainly;
use crate::script::Call;

macro_rules! happenings {
    ($($name:ident: $what:literal,)*) => {
        /// One thing that a script may lead through.
        #[derive(Clone, Copy, PartialEq, Eq, PartialOrd, Ord, Debug)]
        pub enum Happening { $($name,)* }
        /// Every happening with what it is.
        pub const HAPPENINGS: &[(Happening, &str)] = &[$((Happening::$name, $what),)*];
    };
}

happenings! {
    WholeOf1: "a whole loop of 1",
    WholeOf2: "a whole loop of 2",
    WholeOfSome: "a whole loop of 3 to 15",
    WholeOf16: "a whole loop of 16 or more",
    WholeOfAll: "a whole loop of 4,294,967,295, its record set before",
    Missed: "a loop dropped: a W was missed",
    Again: "a loop dropped: the last W came again",
    Earlier: "a loop dropped: an earlier W came again",
    Other911: "a loop dropped: the next W had another 911",
    Above911: "a loop dropped: 34 above 911",
    Anew: "a loop begun anew in its middle",
    AnewOf1: "a loop of 1 in the middle of another",
    AnewNames: "whole after it was begun anew: one taken that the loop before named",
    AnewLowest: "whole after it was begun anew: one taken, the lowest 369 before was lower",
    NoneRuns: "34 above 1 where no loop runs",
    ClosingAgain: "the closing W once more",
    Opened: "a store opened anew in the middle of a loop",
    OverX: "whole over an X in order",
    OverOther: "whole over another type in order",
    OverOld: "whole over an old message",
    OverGap: "whole over a gap",
    OverLetGo: "whole over a queue let go",
    OverBreak: "whole over a break",
    OverFrame: "whole over a W refused by 11",
    OverSum: "whole over a W refused by 12",
    OverType: "whole over a message refused by 13",
    OverFields: "whole over a W refused by 14",
    Held5: "whole with a W before the closing one answered 5",
    Held6: "whole with a W before the closing one answered 6",
    Held7: "whole with a W before the closing one answered 7",
    Held8: "whole with a W before the closing one answered 8",
    Held9: "whole with a W before the closing one answered 9",
    Held10: "whole with a W before the closing one answered 10",
    Closed4: "closed by a 4, an unnamed one waiting",
    Closed5: "closed by a 5, an unnamed one waiting",
    Closed6: "closed by a 6, an unnamed one waiting",
    Closed7: "closed by a 7, an unnamed one waiting",
    Closed8: "closed by an 8, an unnamed one waiting",
    Closed9: "closed by a 9, an unnamed one waiting",
    Closed10: "closed by a 10, an unnamed one waiting",
    Taken4: "closed by a 4, an unnamed one taken",
    Taken5: "closed by a 5, an unnamed one taken",
    Taken6: "closed by a 6, an unnamed one taken",
    Taken8: "closed by an 8, an unnamed one taken",
    Taken9: "closed by a 9, an unnamed one taken",
    Taken10: "closed by a 10, an unnamed one taken",
    LowBelowB: "the lowest 369 is below B",
    LowJustBelowB: "the lowest 369 is B - 1",
    LowAtB: "the lowest 369 is B, below H",
    LowBetween: "the lowest 369 is above B and below H",
    LowAtH: "the lowest 369 is H, above B",
    LowAtBoth: "the lowest 369 is both B and H",
    LowJustAboveH: "the lowest 369 is H + 1",
    LowAboveH: "the lowest 369 is above H",
    LowFirst: "the lowest 369 is the first W's alone",
    LowMiddle: "the lowest 369 is that of a W between alone",
    LowClosing: "the lowest 369 is the closing W's alone",
    LowUnfollowed: "the lowest 369 is that of instruments not followed alone",
    NoReplay: "an unnamed one taken, nothing queued for it",
    Replay: "an unnamed one taken with its replay",
    BrokePlace: "the replay of an unnamed one broke: reason 1",
    BrokeRoom: "the replay of an unnamed one broke: reason 2",
    ReasonCleared: "an unnamed one taken: its reason cleared",
    ReasonReplaced: "the replay of an unnamed one broke: another reason replaced",
    UnnamedLive: "an unnamed one was Live",
    NamedWaits: "a named one waited and was left",
    BrokenSince: "a named one was taken and broke again before the end",
    Several: "several unnamed ones taken at once",
    Mixed: "an unnamed one taken, and another's replay broke",
    NoneWaits: "none waits after the unnamed: the queue emptied, or B moved",
    SomeWait: "an unnamed one taken while another waits on",
    AllAlone: "J for all alone in its message, none waiting",
    AllAloneQueued: "J for all alone in its message, one waiting",
    AllSeveral: "J for all empties several books that hold places",
    AllWhileWaiting: "J for all empties a book that holds places while another instrument waits",
    AllBefore: "J for all before an entry of a Live instrument",
    AllAfter: "J for all behind an entry of a Live instrument",
    AllBetween: "J for all between two entries of one Live instrument",
    AllTwice: "J for all twice, with an entry of a Live instrument between",
    AllAfterBreak: "J for all behind a break in its message, none waiting before: not queued",
    AllAfterBreakQueued: "J for all behind a break in its message, another waiting before: queued",
    AllBeforeBreak: "a break behind a J for all in its message",
    AllBuilt: "a place made behind a J for all in its message",
    AllOld: "J for all in an old message",
    AllGap: "J for all in the message of a gap",
    AllTo255: "J for all with which the queue holds 255",
    AllTo256: "J for all alone as the 256th entry of the queue",
    AllTo256Beside: "J for all beside others with which the queue holds 256",
    AllTo257: "J for all alone as the 257th: the queue let go",
    AllTo257Beside: "J for all beside others, together one too many: the queue let go",
    AllAboveS: "a snapshot whose replay meets a J for all",
    AllAboveSLater: "such a snapshot of another instrument than the first",
    AllAtS: "a snapshot with S the number of a queued J for all",
    AllBelowS: "a snapshot with S above the number of a queued J for all",
    AllInLoop: "an unnamed one taken whose replay meets a J for all",
    AllInLoopBroke: "an unnamed one whose replay meets a J for all and breaks",
}

/// How often each happening was reached.
pub struct Happenings(Vec<u64>);

impl Default for Happenings {
    fn default() -> Happenings {
        Happenings(vec![0; HAPPENINGS.len()])
    }
}

impl Happenings {
    /// Counts what a script leads through.
    pub fn add(&mut self, calls: &[Call]) {
        let mut watch = Watch::default();
        for call in calls {
            watch.call(call, self);
        }
    }

    fn count(&mut self, happening: Happening) {
        self.0[happening as usize] += 1;
    }

    /// Counts it where it holds.
    fn count_if(&mut self, holds: bool, happening: Happening) {
        if holds {
            self.count(happening);
        }
    }

    /// The happenings that were never reached.
    pub fn missed(&self) -> Vec<&'static str> {
        let missed = HAPPENINGS.iter().zip(&self.0).filter(|(_, count)| **count == 0);
        missed.map(|((_, what), _)| *what).collect()
    }

    /// A line for each happening.
    pub fn text(&self) -> String {
        HAPPENINGS.iter().zip(&self.0).map(|((_, what), count)| format!("{count:>9}  {what}\n")).collect()
    }
}

/// A W of the running loop: its 369, what it was answered, and its instrument.
struct InRow {
    last: u64,
    answer: u64,
    id: u64,
}

/// A script under way.
#[derive(Default)]
struct Watch {
    keeper: Keeper,
    /// The W of the running loop, as far as they were seen.
    row: Vec<InRow>,
    /// The loop that it was begun in the middle of.
    dropped: Option<Loop>,
    /// What lay between them.
    between: BTreeSet<Happening>,
    /// The message that ended a loop, while no other W has come.
    closing: Option<Vec<u8>>,
}

impl Watch {
    fn call(&mut self, call: &Call, counts: &mut Happenings) {
        if let Call::Damage { changes, call } = call {
            return self.damaged(changes, call, counts);
        }
        let feeds = matches!(call, Call::Open { .. } | Call::Feed { .. });
        let before = self.keeper.channel.clone().filter(|_| feeds);
        let (line, _) = run_plainly(&mut self.keeper, call);
        let answer = line.split(' ').nth(1).and_then(|word| word.parse().ok());
        match (before, call, answer) {
            (Some(before), Call::Open { .. }, Some(DONE)) => {
                counts.count_if(before.running.is_some(), Happening::Opened);
                self.forget();
                self.closing = None;
            }
            (Some(before), Call::Feed { message, .. }, Some(answer)) if answer != STORE => {
                self.fed(&before, message, answer, counts);
            }
            _ => {}
        }
    }

    /// A call on the store with numbers changed: of a loop that it ends, only the length is told.
    fn damaged(&self, changes: &[(u64, u64)], call: &Call, counts: &mut Happenings) {
        let mut words = self.keeper.words();
        for (index, value) in changes {
            words[*index as usize] = *value;
        }
        let mut keeper = Keeper::of_words(&words);
        let before = keeper.channel.clone();
        let record = |channel: &Option<Channel>| channel.as_ref().and_then(|it| it.running.clone());
        run_plainly(&mut keeper, call);
        let (Some(ran), None) = (record(&before), record(&keeper.channel)) else { return };
        let Call::Feed { message, .. } = call else { return };
        let Some(snapshot) = before.and_then(|it| snapshot_of(message, it.depth)) else { return };
        let ended = ran.come + 1 == ran.reports && is_next(&ran, &snapshot);
        counts.count_if(ended && ran.reports == 4_294_967_295, Happening::WholeOfAll);
    }

    fn forget(&mut self) {
        self.row.clear();
        self.dropped = None;
        self.between.clear();
    }

    /// A message that was fed to a sound store.
    fn fed(&mut self, before: &Channel, bytes: &[u8], answer: u64, counts: &mut Happenings) {
        if let Some(counted) = counted_of(bytes, before.depth) {
            for_all::count_message(before, &counted, answer, counts);
        }
        match snapshot_of(bytes, before.depth) {
            Some(snapshot) => {
                for_all::count_snapshot(before, &snapshot, answer, counts);
                self.turn(before, &snapshot, answer, bytes, counts);
            }
            None if before.running.is_some() => self.lay_between(before, bytes, answer),
            None => {}
        }
    }

    /// A message that is no well-formed W, while a loop runs.
    fn lay_between(&mut self, before: &Channel, bytes: &[u8], answer: u64) {
        let is_w = bytes.windows(6).any(|six| six == b"\x0135=W\x01");
        let is_x = bytes.windows(6).any(|six| six == b"\x0135=X\x01");
        let after = self.keeper.channel.as_ref().expect("opened");
        let live = |channel: &Channel| channel.instruments.len() - channel.waiting();
        let kind = match answer {
            DONE if is_x => Happening::OverX,
            DONE => Happening::OverOther,
            OLD => Happening::OverOld,
            GAP => Happening::OverGap,
            LET_GO => Happening::OverLetGo,
            FRAME if is_w => Happening::OverFrame,
            CHECKSUM if is_w => Happening::OverSum,
            TYPE => Happening::OverType,
            FIELDS if is_w => Happening::OverFields,
            _ => return,
        };
        self.between.insert(kind);
        if [DONE, LET_GO].contains(&answer) && live(after) < live(before) {
            self.between.insert(Happening::OverBreak);
        }
    }

    /// A well-formed W.
    fn turn(
        &mut self,
        before: &Channel,
        snapshot: &Snapshot,
        answer: u64,
        bytes: &[u8],
        counts: &mut Happenings,
    ) {
        let goes_on = before.running.as_ref().is_some_and(|ran| is_next(ran, snapshot));
        if !goes_on {
            count_other(before.running.as_ref(), snapshot, counts);
            self.forget();
            self.dropped = before.running.clone();
        }
        counts.count_if(self.closing.as_deref() == Some(bytes), Happening::ClosingAgain);
        self.closing = None;
        self.row.push(InRow { last: snapshot.last, answer, id: snapshot.id });
        let whole = snapshot.number == snapshot.reports && (goes_on || snapshot.number == 1);
        if whole {
            self.ended(before, snapshot, counts);
            self.forget();
            self.closing = Some(bytes.to_vec());
        }
    }

    /// A loop that this W made whole.
    fn ended(&self, before: &Channel, closing: &Snapshot, counts: &mut Happenings) {
        counts.count(match closing.reports {
            1 => Happening::WholeOf1,
            2 => Happening::WholeOf2,
            3..=15 => Happening::WholeOfSome,
            _ => Happening::WholeOf16,
        });
        self.between.iter().for_each(|over| counts.count(*over));
        let after = self.keeper.channel.as_ref().expect("opened");
        let (last, earlier) = self.row.split_last().expect("a loop");
        self.count_row(earlier, counts);
        let pairs = before.instruments.iter().zip(&after.instruments);
        let waited: Vec<_> = pairs.filter(|(was, _)| was.waiting && !self.names(was)).collect();
        if !waited.is_empty() {
            self.count_lowest(before, counts);
            count_closed(last.answer, &waited, counts);
        }
        let lowest = self.lowest();
        if before.b <= lowest && lowest <= before.h {
            self.count_left(before, after, earlier, counts);
            count_unnamed(before, after, lowest, &waited, counts);
            self.dropped.iter().for_each(|dropped| count_anew(dropped, lowest, &waited, counts));
        }
    }

    /// Whether a W of the loop names this instrument.
    fn names(&self, instrument: &Instrument) -> bool {
        self.row.iter().any(|w| w.id == instrument.id)
    }

    /// What the step left as it was: the Live, and the named.
    fn count_left(&self, before: &Channel, after: &Channel, earlier: &[InRow], counts: &mut Happenings) {
        let live = before.instruments.iter().any(|it| !it.waiting && !self.names(it));
        counts.count_if(live, Happening::UnnamedLive);
        let left = || after.instruments.iter().filter(|it| it.waiting && self.names(it));
        counts.count_if(left().count() > 0, Happening::NamedWaits);
        let was_taken = |it: &Instrument| earlier.iter().any(|w| w.id == it.id && w.answer == TAKEN);
        counts.count_if(left().any(|it| it.reason > 0 && was_taken(it)), Happening::BrokenSince);
    }

    fn lowest(&self) -> u64 {
        self.row.iter().map(|w| w.last).min().expect("a loop")
    }

    /// What the W before the closing one were answered.
    fn count_row(&self, earlier: &[InRow], counts: &mut Happenings) {
        let held = [
            (SNAPSHOT_NOT_FOLLOWED, Happening::Held5),
            (ALREADY_LIVE, Happening::Held6),
            (BELOW_B, Happening::Held7),
            (ABOVE_H, Happening::Held8),
            (SIDE_OVER_20, Happening::Held9),
            (REPLAY_BROKE, Happening::Held10),
        ];
        for (answer, happening) in held {
            counts.count_if(earlier.iter().any(|w| w.answer == answer), happening);
        }
    }

    /// Where the lowest 369 lies, and which W told it.
    fn count_lowest(&self, before: &Channel, counts: &mut Happenings) {
        let (lowest, b, h) = (self.lowest(), before.b, before.h);
        counts.count_if(lowest < b, Happening::LowBelowB);
        counts.count_if(lowest + 1 == b, Happening::LowJustBelowB);
        counts.count_if(lowest == b && b < h, Happening::LowAtB);
        counts.count_if(b < lowest && lowest < h, Happening::LowBetween);
        counts.count_if(lowest == h && b < h, Happening::LowAtH);
        counts.count_if(lowest == h && b == h, Happening::LowAtBoth);
        counts.count_if(lowest == h + 1, Happening::LowJustAboveH);
        counts.count_if(lowest > h, Happening::LowAboveH);
        let told: Vec<usize> = (0..self.row.len()).filter(|i| self.row[*i].last == lowest).collect();
        let n = self.row.len();
        counts.count_if(n > 1 && told == [0], Happening::LowFirst);
        counts.count_if(n > 2 && told.len() == 1 && told[0] > 0 && told[0] < n - 1, Happening::LowMiddle);
        counts.count_if(n > 1 && told == [n - 1], Happening::LowClosing);
        let followed = |i: &usize| self.row[*i].answer != SNAPSHOT_NOT_FOLLOWED;
        let others = self.row.iter().any(|w| w.answer != SNAPSHOT_NOT_FOLLOWED);
        counts.count_if(others && !told.iter().any(followed), Happening::LowUnfollowed);
    }
}

/// Whether a W is the next of a loop.
fn is_next(ran: &Loop, snapshot: &Snapshot) -> bool {
    snapshot.number == ran.come + 1 && snapshot.reports == ran.reports
}

/// A W that does not go on with the loop that ran, or that met none.
fn count_other(ran: Option<&Loop>, snapshot: &Snapshot, counts: &mut Happenings) {
    let (number, reports) = (snapshot.number, snapshot.reports);
    let Some(ran) = ran else {
        return counts.count_if(number > 1, Happening::NoneRuns);
    };
    let same = reports == ran.reports;
    counts.count_if(number == 1, Happening::Anew);
    counts.count_if(number == 1 && reports == 1, Happening::AnewOf1);
    counts.count_if(same && number > ran.come + 1 && number <= reports, Happening::Missed);
    counts.count_if(same && number == ran.come && number > 1, Happening::Again);
    counts.count_if(same && number < ran.come && number > 1, Happening::Earlier);
    counts.count_if(!same && number == ran.come + 1, Happening::Other911);
    counts.count_if(same && number > reports, Happening::Above911);
}

/// How the closing W was answered, with unnamed instruments that waited, before and after.
fn count_closed(answer: u64, waited: &[(&Instrument, &Instrument)], counts: &mut Happenings) {
    let taken = waited.iter().any(|(_, is)| !is.waiting);
    let (closed, with_taken) = match answer {
        TAKEN => (Happening::Closed4, Some(Happening::Taken4)),
        SNAPSHOT_NOT_FOLLOWED => (Happening::Closed5, Some(Happening::Taken5)),
        ALREADY_LIVE => (Happening::Closed6, Some(Happening::Taken6)),
        // The closing W's own 369 is below B, so the lowest is, and none can be taken.
        BELOW_B => (Happening::Closed7, None),
        ABOVE_H => (Happening::Closed8, Some(Happening::Taken8)),
        SIDE_OVER_20 => (Happening::Closed9, Some(Happening::Taken9)),
        _ => (Happening::Closed10, Some(Happening::Taken10)),
    };
    counts.count(closed);
    with_taken.into_iter().filter(|_| taken).for_each(|happening| counts.count(happening));
}

/// A whole loop that was begun anew, where names or lowest 369 of the one before would have mattered.
fn count_anew(dropped: &Loop, lowest: u64, waited: &[(&Instrument, &Instrument)], counts: &mut Happenings) {
    let mut taken = waited.iter().filter(|(_, is)| !is.waiting).map(|(was, _)| was.id);
    counts.count_if(taken.clone().count() > 0 && dropped.lowest < lowest, Happening::AnewLowest);
    counts.count_if(taken.any(|id| dropped.named.contains(&id)), Happening::AnewNames);
}

/// What became of the unnamed instruments that waited, with the lowest 369 in B to H.
fn count_unnamed(
    before: &Channel,
    after: &Channel,
    lowest: u64,
    waited: &[(&Instrument, &Instrument)],
    counts: &mut Happenings,
) {
    let replays = |id: u64| before.queue.iter().any(|it| it.entry.concerns(id) && it.number > lowest);
    let meets_all = for_all::numbers(before).any(|number| number > lowest);
    for (was, is) in waited {
        counts.count_if(meets_all && !is.waiting, Happening::AllInLoop);
        counts.count_if(meets_all && is.waiting, Happening::AllInLoopBroke);
        match (is.waiting, is.reason) {
            (false, _) if replays(was.id) => counts.count(Happening::Replay),
            (false, _) => counts.count(Happening::NoReplay),
            (true, 1) => counts.count(Happening::BrokePlace),
            (true, _) => counts.count(Happening::BrokeRoom),
        }
        counts.count_if(!is.waiting && was.reason > 0, Happening::ReasonCleared);
        let replaced = is.waiting && was.reason > 0 && was.reason != is.reason;
        counts.count_if(replaced, Happening::ReasonReplaced);
    }
    let taken = waited.iter().filter(|(_, is)| !is.waiting).count();
    counts.count_if(taken > 1, Happening::Several);
    counts.count_if(taken > 0 && taken < waited.len(), Happening::Mixed);
    let moved = !before.queue.is_empty() || before.b < before.h;
    counts.count_if(taken > 0 && after.waiting() == 0 && moved, Happening::NoneWaits);
    counts.count_if(taken > 0 && after.waiting() > 0, Happening::SomeWait);
}
