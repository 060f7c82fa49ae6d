//! The making of calls: a seed gives a script that leads a store through true streams, losses,
//! bursts, J for all, snapshots of every kind, loops of them whole and broken, bounds of every field,
//! harm, questions good and bad, the longest writings, books aimed at the bounds of a lot's sum, and
//! recordings to walk.

mod asks;
mod bounds;
mod clock;
pub mod damage;
pub mod draft;
mod entries;
mod exchange;
mod faults;
mod harm;
mod loops;
mod lots;
mod night;
mod resets;
mod rng;
mod scramble;
mod snapshots;
mod stores;
mod stream;
mod values;
mod walks;

use crate::book::Entry;
use crate::channel::Channel;
use crate::keeper::{Keeper, STORE_NUMBERS};
use crate::layout;
use crate::run::run_plainly;
use crate::script::Call;
use exchange::Exchange;
use rng::Rng;

/// Kinds of steps, in the order of the weights below.
#[derive(Clone, Copy)]
enum Step {
    Next,
    Recover,
    RecoverAll,
    SnapshotEdge,
    Loop,
    Lose,
    Late,
    Burst,
    Reset,
    Wrong,
    Bound,
    HarmFields,
    HarmFrame,
    HarmBytes,
    Scramble,
    Long,
    Quote,
    Lot,
    AimedLots,
    Write,
    LongestWrite,
    State,
    Board,
    Salvage,
    OddStore,
    Damage,
    Reopen,
}

/// How often each step is taken under each theme; a theme holds for a while.
const WEIGHTS: [(Step, [u64; 6]); 27] = [
    // calm, losses, bursts, bounds, harm, questions
    (Step::Next, [300, 200, 120, 120, 120, 80]),
    (Step::Recover, [60, 120, 40, 60, 60, 40]),
    (Step::RecoverAll, [14, 16, 10, 20, 20, 14]),
    (Step::SnapshotEdge, [20, 70, 40, 20, 20, 10]),
    (Step::Loop, [30, 40, 24, 20, 18, 14]),
    (Step::Lose, [6, 40, 20, 6, 6, 6]),
    (Step::Late, [16, 50, 10, 10, 10, 10]),
    (Step::Burst, [1, 3, 14, 0, 0, 0]),
    (Step::Reset, [16, 18, 20, 12, 14, 8]),
    (Step::Wrong, [24, 24, 16, 10, 10, 10]),
    (Step::Bound, [16, 16, 6, 300, 30, 12]),
    (Step::HarmFields, [20, 20, 10, 60, 260, 20]),
    (Step::HarmFrame, [8, 8, 6, 20, 80, 8]),
    (Step::HarmBytes, [6, 6, 4, 10, 70, 8]),
    (Step::Scramble, [6, 6, 4, 60, 80, 6]),
    (Step::Long, [1, 1, 1, 6, 6, 1]),
    (Step::Quote, [60, 40, 30, 40, 30, 220]),
    (Step::Lot, [44, 30, 22, 30, 22, 160]),
    (Step::AimedLots, [8, 6, 6, 6, 5, 30]),
    (Step::Write, [40, 30, 30, 40, 30, 120]),
    (Step::LongestWrite, [2, 1, 1, 3, 1, 6]),
    (Step::State, [40, 50, 40, 30, 30, 70]),
    (Step::Board, [30, 40, 30, 20, 20, 60]),
    (Step::Salvage, [22, 22, 16, 24, 24, 26]),
    (Step::OddStore, [6, 6, 4, 6, 6, 24]),
    (Step::Damage, [9, 9, 11, 9, 9, 12]),
    (Step::Reopen, [2, 2, 1, 3, 3, 5]),
];

struct Generator {
    rng: Rng,
    calls: Vec<Call>,
    /// The second keeper run along, to aim by: H, B, the queue and who waits.
    guide: Keeper,
    exchange: Exchange,
    /// Messages to repeat or to bring late.
    kept: Vec<Vec<u8>>,
    theme: usize,
}

/// The script of a seed, `count` calls long.
pub fn script(seed: u64, count: usize) -> Vec<Call> {
    let exchange = Exchange::new(0, vec![1], 1, 0, 0);
    let mut generator = Generator {
        rng: Rng::new(seed),
        calls: Vec::new(),
        guide: Keeper::default(),
        exchange,
        kept: Vec::new(),
        theme: 0,
    };
    generator.theme = generator.rng.below(6);
    generator.reopen();
    while generator.calls.len() < count {
        if generator.rng.chance(1) {
            generator.theme = generator.rng.below(6);
        }
        generator.step();
    }
    generator.calls.truncate(count);
    generator.calls
}

/// How long a script is searched for a store to sweep.
const SEARCHED: usize = 3_000;

/// The script of a seed up to a store that holds much, and then calls on that store with each of
/// its 7,168 numbers in turn just outside its range, with the number of each layout before this one,
/// and with loop records at the edges of theirs: a message each time, another call at every fourth.
pub fn sweep(seed: u64) -> Vec<Call> {
    let mut calls = script(seed, SEARCHED);
    let mut keeper = Keeper::default();
    let (mut most, mut end, mut store) = (0, 1, Vec::new());
    for (i, call) in calls.iter().enumerate() {
        run_plainly(&mut keeper, call);
        let used = numbers_used(&keeper);
        if used > most {
            (most, end, store) = (used, i + 1, keeper.words());
        }
    }
    let later = calls.split_off(end);
    let is_ask = |call: &&Call| {
        let asks = matches!(call.function(), Some("quote" | "sell" | "buy" | "write" | "state" | "board"));
        asks && !matches!(call, Call::Damage { .. })
    };
    let mut feeds = later.iter().filter(|call| matches!(call, Call::Feed { .. })).cycle();
    let mut asks = later.iter().filter(is_ask).cycle();
    let singly = damage::just_outside(&store).into_iter().map(|change| vec![change]);
    let layouts = damage::older_layouts().into_iter();
    for (i, changes) in singly.chain(layouts).chain(damage::loop_edges(&store)).enumerate() {
        let ask = if i % 4 == 0 { asks.next() } else { None };
        for call in feeds.next().into_iter().chain(ask) {
            calls.push(Call::Damage { changes: changes.clone(), call: Box::new(call.clone()) });
        }
    }
    calls
}

/// How many numbers of a store aren't zero, where it has places, queued entries with a J for all
/// among them, and a loop that runs.
fn numbers_used(keeper: &Keeper) -> usize {
    let Some(channel) = &keeper.channel else { return 0 };
    let places = channel.instruments.iter().any(|instrument| !instrument.book.bids.is_empty());
    let for_all = channel.queue.iter().any(|queued| queued.entry == Entry::EmptyAll);
    if places && for_all && channel.running.is_some() {
        layout::words(channel).iter().filter(|word| **word != 0).count()
    } else {
        0
    }
}

impl Generator {
    /// Takes one step of the present theme.
    fn step(&mut self) {
        if self.exchange.at_end() && self.rng.chance(10) {
            return self.reopen();
        }
        match self.choose() {
            Step::Next => self.next(),
            Step::Recover => self.recover(),
            Step::RecoverAll => self.recover_all(),
            Step::SnapshotEdge => self.snapshot_edge(),
            Step::Loop => self.snapshot_loop(),
            Step::Lose => self.lose(),
            Step::Late => self.late(),
            Step::Burst => self.burst(),
            Step::Reset => self.reset(),
            Step::Wrong => self.wrong(),
            Step::Bound => self.bound(),
            Step::HarmFields => self.harm_fields(),
            Step::HarmFrame => self.harm_frame(),
            Step::HarmBytes => self.harm_bytes(),
            Step::Scramble => self.scramble(),
            Step::Long => self.long(),
            Step::Quote => self.quote(),
            Step::Lot => self.lot(),
            Step::AimedLots => self.aimed_lots(),
            Step::Write => self.write(),
            Step::LongestWrite => self.longest_write(),
            Step::State => self.state(),
            Step::Board => self.board(),
            Step::Salvage => self.salvage(),
            Step::OddStore => self.odd_store(),
            Step::Damage => self.damage(),
            Step::Reopen => self.reopen(),
        }
    }

    fn choose(&mut self) -> Step {
        let all: u64 = WEIGHTS.iter().map(|(_, weights)| weights[self.theme]).sum();
        let mut at = self.rng.between(0, all - 1);
        for (step, weights) in WEIGHTS {
            if at < weights[self.theme] {
                return step;
            }
            at -= weights[self.theme];
        }
        Step::Next
    }

    /// Adds a call, runs it on the guide, and gives its answer number.
    fn call(&mut self, call: Call) -> u64 {
        let (line, _) = run_plainly(&mut self.guide, &call);
        self.calls.push(call);
        line.split(' ').nth(1).and_then(|word| word.parse().ok()).unwrap_or(0)
    }

    /// Feeds a message; the exchange follows where the guide has counted further.
    fn feed(&mut self, message: Vec<u8>) -> u64 {
        let answer = self.call(Call::Feed { store_n: STORE_NUMBERS, message });
        let h = self.guide.channel.as_ref().map_or(0, |channel| channel.h);
        self.exchange.catch_up(h);
        answer
    }

    fn channel(&self) -> Option<&Channel> {
        self.guide.channel.as_ref()
    }

    /// H and B as the guide has them.
    fn h_and_b(&self) -> (u64, u64) {
        self.channel().map_or((0, 0), |channel| (channel.h, channel.b))
    }

    /// Places of the Waiting instruments, or of the Live ones, among the exchange's.
    fn marked(&self, waiting: bool) -> Vec<usize> {
        let Some(channel) = self.channel() else { return Vec::new() };
        let marked =
            |i: &usize| channel.find(self.exchange.ids[*i]).is_some_and(|found| found.waiting == waiting);
        (0..self.exchange.ids.len()).filter(marked).collect()
    }
}
