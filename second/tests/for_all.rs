//! Request K4 of document 02: a J without 48 empties every followed instrument's book.

use selkavorn_second::book::{Entry, Step};
use selkavorn_second::channel::Channel;
use selkavorn_second::gen::draft::{field, Draft};
use selkavorn_second::gen::script;
use selkavorn_second::keeper::Keeper;
use selkavorn_second::layout::{read, slot, words, AT_QUEUED, J_FOR_ALL, J_OF_ONE, LAYOUT};
use selkavorn_second::message::counted_of;
use selkavorn_second::run::run_plainly;
use selkavorn_second::script::Call;

const STORE: u64 = 7_168;
const PLACE: &str = "270=1|271=1|37=A|346=1|272=20250103|273=12:00:00|";
const FOR_ALL: &str = "279=0|269=J|";
/// An instrument that no keeper here follows.
const OTHER: u64 = 55;
/// 7, 8 and 9, in the order of opening.
const IDS: [u64; 3] = [7, 8, 9];

/// A message from what stands between 9 and 10, with `|` for SOH.
fn message(body: &str) -> Vec<u8> {
    let text = format!("8=FIX.4.4|9={}|{body}", body.len()).replace('|', "\u{1}");
    let sum: u64 = text.bytes().map(u64::from).sum();
    format!("{text}10={:03}\u{1}", sum % 256).into_bytes()
}

/// An X with these entries.
fn x(number: u64, entries: &[&str]) -> Vec<u8> {
    let (n, group) = (entries.len(), entries.concat());
    message(&format!("35=X|34={number}|52=20250103-13:00:00|268={n}|{group}"))
}

/// A W numbered `turn` of `reports`, with so many bids and one offer.
fn w((turn, reports): (u64, u64), id: u64, last: u64, bids: usize) -> Vec<u8> {
    let bid = |p| format!("269=0|{PLACE}290={p}|");
    let group: String = (1..=bids).map(bid).collect();
    let head = format!("35=W|34={turn}|52=20250103-14:00:00|48={id}|22=8|369={last}|911={reports}");
    message(&format!("{head}|268={}|{group}269=1|{PLACE}290=1|", bids + 1))
}

/// A new bid at a position.
fn new(id: u64, position: usize) -> String {
    format!("279=0|269=0|48={id}|22=8|290={position}|{PLACE}")
}

/// A bid deleted at a position.
fn delete(id: u64, position: usize) -> String {
    format!("279=2|269=0|48={id}|22=8|290={position}|")
}

#[track_caller]
fn fed(keeper: &mut Keeper, message: &[u8], answer: (u64, u64)) {
    assert_eq!(keeper.feed(STORE, message), answer);
    let words = keeper.words();
    assert_eq!(read(&words).map(|channel| self::words(&channel)), Some(words), "the store is sound");
}

/// Waiting or not, reason, bids and offers of 7, 8 and 9.
fn states(keeper: &Keeper) -> [[u64; 4]; 3] {
    IDS.map(|id| keeper.state(STORE, id, 4).unwrap())
}

/// B, H and how many are queued.
fn numbers(keeper: &Keeper) -> (u64, u64, usize) {
    let channel = keeper.channel.as_ref().unwrap();
    (channel.b, channel.h, channel.queue.len())
}

const EMPTY: [u64; 4] = [0, 0, 0, 0];
const FRESH: [u64; 4] = [1, 0, 0, 0];
const BROKEN: [u64; 4] = [1, 1, 0, 0];

/// 7, 8 and 9 Live with two, three and four bids and an offer each; H = 1.
fn live(depth: u64) -> Keeper {
    let mut keeper = Keeper::default();
    assert_eq!(keeper.open(STORE, depth, &IDS), 0);
    fed(&mut keeper, &x(1, &[]), (0, 3));
    for (i, id) in (0..).zip(IDS) {
        fed(&mut keeper, &w((1, 9), id, 1, 2 + i), (4, 2 - i as u64));
    }
    assert_eq!(states(&keeper), [[0, 0, 2, 1], [0, 0, 3, 1], [0, 0, 4, 1]]);
    keeper
}

/// The same with 8 broken by message 2, so that it waits; B = H = 2.
fn one_waits() -> Keeper {
    let mut keeper = live(0);
    fed(&mut keeper, &x(2, &[&delete(8, 9)]), (0, 1));
    assert_eq!(numbers(&keeper), (2, 2, 0));
    keeper
}

#[test]
fn every_book_is_emptied() {
    for depth in [0, 1] {
        for action in 0..=4 {
            let mut keeper = live(depth);
            fed(&mut keeper, &x(2, &[&format!("279={action}|269=J|")]), (0, 0));
            assert_eq!(states(&keeper), [EMPTY; 3]);
            assert_eq!(numbers(&keeper), (2, 2, 0));
            fed(&mut keeper, &x(3, &[&new(8, 1), &new(9, 1)]), (0, 0));
            assert_eq!(states(&keeper), [EMPTY, [0, 0, 1, 0], [0, 0, 1, 0]]);
        }
    }
}

/// What stands before it is gone, what stands behind it is done to empty books.
#[test]
fn at_that_point_of_the_message() {
    let cases: [(&[&str], [[u64; 4]; 3]); 7] = [
        (&[FOR_ALL, &new(7, 1)], [[0, 0, 1, 0], EMPTY, EMPTY]),
        (&[&new(7, 1), FOR_ALL], [EMPTY; 3]),
        (&[&new(7, 1), FOR_ALL, &new(7, 1), &new(7, 2)], [[0, 0, 2, 0], EMPTY, EMPTY]),
        (&[FOR_ALL, &new(7, 1), FOR_ALL, &new(8, 1)], [EMPTY, [0, 0, 1, 0], EMPTY]),
        (&[&new(OTHER, 1), FOR_ALL, &delete(OTHER, 1)], [EMPTY; 3]),
        (&[FOR_ALL, &delete(7, 1), &new(9, 1)], [BROKEN, EMPTY, [0, 0, 1, 0]]),
        (&["279=0|269=2|", FOR_ALL, &new(8, 2)], [EMPTY, BROKEN, EMPTY]),
    ];
    for (entries, after) in cases {
        let mut keeper = live(0);
        let waiting = after.iter().filter(|state| state[0] == 1).count() as u64;
        fed(&mut keeper, &x(2, entries), (0, waiting));
        assert_eq!(states(&keeper), after, "{entries:?}");
        assert_eq!(numbers(&keeper), (2, 2, 0));
    }
}

/// One that broke before it in the message is Waiting then, and is left with its reason.
#[test]
fn behind_a_break() {
    let mut keeper = live(0);
    fed(&mut keeper, &x(2, &[&delete(8, 9), FOR_ALL, &new(8, 1), &new(9, 1)]), (0, 1));
    assert_eq!(states(&keeper), [EMPTY, BROKEN, [0, 0, 1, 0]]);
    assert_eq!(numbers(&keeper), (2, 2, 0));
}

/// While another waits already it stays queued, and B stays: the replay of the one that broke meets it too.
#[test]
fn behind_a_break_while_another_waits() {
    let start = || {
        let mut keeper = one_waits();
        fed(&mut keeper, &x(3, &[&delete(7, 9), FOR_ALL, &new(7, 1), &new(9, 1)]), (0, 2));
        assert_eq!(states(&keeper), [BROKEN, BROKEN, [0, 0, 1, 0]]);
        assert_eq!(numbers(&keeper), (2, 3, 4));
        assert_eq!(keeper.words()[slot(1)..slot(2)], [3, 0, J_FOR_ALL, 0, 0, 0, 0, 0, 0, 0, 0]);
        fed(&mut keeper, &x(4, &[&new(7, 1)]), (0, 2));
        assert_eq!(numbers(&keeper), (2, 4, 5));
        keeper
    };
    // As of 2 the delete comes first: nine bids bear it, fewer do not.
    let cases = [
        (1, 9, 7, BROKEN),
        (2, 8, 10, BROKEN),
        (2, 9, 4, [0, 0, 2, 0]),
        (3, 9, 4, [0, 0, 10, 1]),
        (4, 9, 4, [0, 0, 9, 1]),
    ];
    for (last, bids, answer, after) in cases {
        let mut keeper = start();
        fed(&mut keeper, &w((1, 9), 7, last, bids), (answer, 1 + after[0]));
        assert_eq!(states(&keeper), [after, BROKEN, [0, 0, 1, 0]], "{last}, {bids}");
        assert_eq!(numbers(&keeper), (2, 4, 5));
        // It is still there for the one that waited before.
        fed(&mut keeper, &w((1, 9), 8, 2, 3), (4, after[0]));
        assert_eq!(states(&keeper), [after, EMPTY, [0, 0, 1, 0]]);
        assert_eq!(numbers(&keeper), if after[0] == 0 { (4, 4, 0) } else { (2, 4, 5) });
    }
}

/// Behind a break where none waited before it takes no place in the queue: 256 entries find room.
#[test]
fn behind_a_break_no_place_is_taken() {
    let mut keeper = live(0);
    fed(&mut keeper, &x(2, &[&delete(8, 9), FOR_ALL, FOR_ALL]), (0, 1));
    assert_eq!(numbers(&keeper), (2, 2, 0));
    for number in 3..7 {
        fed(&mut keeper, &x(number, &[FOR_ALL; 64]), (0, 1));
    }
    assert_eq!(numbers(&keeper), (2, 6, 256));
    fed(&mut keeper, &x(7, &[FOR_ALL]), (3, 1));
    assert_eq!(numbers(&keeper), (7, 7, 0));
}

/// It joins the queue whenever one waits, whatever else its message holds, and Live books are emptied.
#[test]
fn queued_as_one_entry() {
    for entries in [&[FOR_ALL][..], &[FOR_ALL, "279=0|269=2|48=8|"], &[&new(OTHER, 1), FOR_ALL]] {
        let mut keeper = one_waits();
        fed(&mut keeper, &x(3, entries), (0, 1));
        assert_eq!(states(&keeper), [EMPTY, BROKEN, EMPTY]);
        assert_eq!(numbers(&keeper), (2, 3, 1));
        assert_eq!(keeper.words()[slot(0)..slot(1)], [3, 0, J_FOR_ALL, 0, 0, 0, 0, 0, 0, 0, 0]);
    }
}

/// Every instrument's replay meets it, if its number is above S, whichever is taken first.
#[test]
fn replayed_above_s() {
    let met = [[0, 0, 1, 0], [0, 0, 1, 0], EMPTY];
    let [one, two] = [[0, 0, 1, 1], [0, 0, 2, 1]];
    for (last, after) in [(2, met), (3, met), (4, met), (5, [one, two, one]), (6, [one; 3])] {
        for order in [IDS, [9, 8, 7], [8, 9, 7]] {
            let mut keeper = Keeper::default();
            assert_eq!(keeper.open(STORE, 0, &IDS), 0);
            fed(&mut keeper, &x(3, &[&new(7, 1)]), (1, 3));
            fed(&mut keeper, &x(4, &[&new(9, 1)]), (0, 3));
            fed(&mut keeper, &x(5, &[&new(7, 1), FOR_ALL, &new(7, 1)]), (0, 3));
            fed(&mut keeper, &x(6, &[&new(8, 1)]), (0, 3));
            for (id, waiting) in order.into_iter().zip([2, 1, 0]) {
                fed(&mut keeper, &w((1, 9), id, last, 1), (4, waiting));
            }
            assert_eq!(states(&keeper), after, "{last}, {order:?}");
        }
    }
}

/// A replay that it leaves without a place breaks.
#[test]
fn a_replay_that_breaks() {
    let mut keeper = one_waits();
    fed(&mut keeper, &x(3, &[FOR_ALL]), (0, 1));
    fed(&mut keeper, &x(4, &[&delete(8, 1)]), (0, 1));
    fed(&mut keeper, &w((1, 9), 8, 2, 3), (10, 1));
    assert_eq!(states(&keeper)[1], BROKEN);
    fed(&mut keeper, &w((1, 9), 8, 3, 3), (4, 0));
    assert_eq!(states(&keeper)[1], [0, 0, 2, 1]);
}

/// In the message of a gap it is queued; in an old one it is old.
#[test]
fn gaps_and_old_messages() {
    let mut keeper = live(0);
    fed(&mut keeper, &x(1, &[FOR_ALL]), (2, 0));
    assert_eq!(states(&keeper)[0], [0, 0, 2, 1]);
    fed(&mut keeper, &x(5, &[FOR_ALL]), (1, 3));
    assert_eq!(states(&keeper), [FRESH; 3]);
    assert_eq!(numbers(&keeper), (4, 5, 1));
    fed(&mut keeper, &w((1, 9), 9, 4, 2), (4, 2));
    fed(&mut keeper, &w((1, 9), 8, 5, 2), (4, 1));
    assert_eq!(states(&keeper), [FRESH, [0, 0, 2, 1], EMPTY]);
}

/// The board with 8 Waiting and so many entries of it queued.
fn with_queued(queued: usize) -> Keeper {
    let mut keeper = one_waits();
    let (mut left, mut number) = (queued, 3);
    while left > 0 {
        let some = left.min(64);
        fed(&mut keeper, &x(number, &vec!["279=0|269=J|48=8|22=8|"; some]), (0, 1));
        (left, number) = (left - some, number + 1);
    }
    assert_eq!(numbers(&keeper).2, queued);
    keeper
}

/// It counts once against 256, alone and among others.
#[test]
fn counted_once() {
    let of_8 = new(8, 1);
    let cases: [(usize, &[&str], bool); 8] = [
        (254, &[FOR_ALL], false),
        (255, &[FOR_ALL], false),
        (256, &[FOR_ALL], true),
        (254, &[FOR_ALL, &of_8], false),
        (254, &[&of_8, FOR_ALL], false),
        (255, &[FOR_ALL, &of_8], true),
        (255, &[&of_8, FOR_ALL], true),
        (253, &[FOR_ALL, &of_8, FOR_ALL], false),
    ];
    for (queued, entries, let_go) in cases {
        let mut keeper = with_queued(queued);
        let number = numbers(&keeper).1 + 1;
        fed(&mut keeper, &x(number, entries), (if let_go { 3 } else { 0 }, 1));
        let kept = if let_go { (number, number, 0) } else { (2, number, queued + entries.len()) };
        assert_eq!(numbers(&keeper), kept, "{queued} and {entries:?}");
        assert_eq!(states(&keeper), [EMPTY, BROKEN, EMPTY]);
    }
}

/// The replay of the empty snapshot at a loop's end meets it too; the record is left by it.
#[test]
fn at_the_end_of_a_loop() {
    for (lowest, held) in [(2, [1, 2]), (4, [1, 2]), (5, [1, 0]), (6, [0, 0])] {
        let mut keeper = Keeper::default();
        assert_eq!(keeper.open(STORE, 0, &IDS), 0);
        fed(&mut keeper, &x(3, &[]), (1, 3));
        fed(&mut keeper, &w((1, 2), OTHER, lowest, 0), (5, 3));
        fed(&mut keeper, &x(4, &[&new(8, 1)]), (0, 3));
        fed(&mut keeper, &x(5, &[&new(9, 1), FOR_ALL, &new(9, 1), &new(9, 2)]), (0, 3));
        fed(&mut keeper, &x(6, &[&new(8, 1)]), (0, 3));
        fed(&mut keeper, &w((2, 2), OTHER, 6, 0), (5, 0));
        let bids = states(&keeper).map(|state| state[2]);
        assert_eq!(bids, [0, held[0], held[1]], "{lowest}");
    }
}

/// 22 and 207 must be absent where 48 is, whatever their values; 279 is checked; bids and offers need
/// 48, and a J with 48 needs 22. Nothing changes by what is refused.
#[test]
fn refused() {
    let side = |told: &str| format!("279=0|269=0|{told}290=1|{PLACE}");
    let sides = ["", "22=8|", "22=8|207=BVMF|"].map(side);
    let entries = [
        "279=0|269=J|22=8|",
        "279=0|269=J|22=4|",
        "279=0|269=J|207=BVMF|",
        "279=0|269=J|207=x|",
        "279=0|269=J|22=8|207=BVMF|",
        "279=0|22=x|207=x|269=J|",
        "279=5|269=J|",
        "279=00|269=J|",
        "279=x|269=J|",
        "269=J|",
        "279=0|269=J|48=7|",
        "279=0|269=J|48=0|22=8|",
        "279=0|269=J|48=7|22=8|207=x|",
        "279=2|269=1|290=1|",
    ];
    for entry in entries.into_iter().chain(sides.iter().map(String::as_str)) {
        for entries in [&[entry][..], &[FOR_ALL, entry], &[entry, FOR_ALL]] {
            let mut keeper = one_waits();
            let before = keeper.words();
            fed(&mut keeper, &x(3, entries), (14, 1));
            assert_eq!(keeper.words(), before, "{entries:?}");
        }
    }
}

/// Values that a J does not need are not read, and other tags are passed over.
#[test]
fn values_that_are_not_read() {
    for rest in ["290=x|", "270=1.|271=0|37= |346=0|272=x|273=x|290=0|", "83=1|58=a|58=a|"] {
        let mut keeper = live(1);
        fed(&mut keeper, &x(2, &[&format!("{FOR_ALL}{rest}")]), (0, 0));
        assert_eq!(states(&keeper), [EMPTY; 3]);
    }
}

/// In a W a J is passed over, and 48 is no tag of an entry.
#[test]
fn in_a_snapshot() {
    let w = |group: &str| {
        message(&format!(
            "35=W|34=1|52=20250103-14:00:00|48=8|22=8|369=2|911=9|268=2|269=0|{PLACE}290=1|{group}"
        ))
    };
    let mut keeper = one_waits();
    fed(&mut keeper, &w("269=J|48=8|22=8|"), (14, 1));
    fed(&mut keeper, &w("269=J|"), (4, 0));
    assert_eq!(states(&keeper), [[0, 0, 2, 1], [0, 0, 1, 0], [0, 0, 4, 1]]);
}

/// A queued J for all is kind 3 with instrument 0 and zeros; all else about it is unsound.
#[test]
fn in_the_store() {
    let mut keeper = one_waits();
    fed(&mut keeper, &x(3, &["279=0|269=J|48=7|22=8|", FOR_ALL, "279=0|269=J|48=9|22=8|"]), (0, 1));
    let store = keeper.words();
    assert_eq!((store[0], store[AT_QUEUED]), (LAYOUT, 3));
    let sound = |changes: &[(usize, u64)]| {
        let mut store = store.clone();
        changes.iter().for_each(|(at, value)| store[*at] = *value);
        read(&store).is_some()
    };
    let (first, at, last) = (slot(0), slot(1), slot(2));
    assert!(sound(&[]));
    assert!(sound(&[(at + 2, J_OF_ONE)]));
    assert!(sound(&[(at + 2, J_OF_ONE), (at + 1, 1)]));
    assert!(sound(&[(first + 2, J_FOR_ALL)]));
    assert!(!sound(&[(last + 2, J_FOR_ALL)]));
    assert!(sound(&[(last + 2, J_FOR_ALL), (last + 1, 0)]));
    for who in [1, 2, 3, 16, u64::MAX] {
        assert!(!sound(&[(at + 1, who)]), "{who}");
    }
    for what in [0, 1, 4, 5, 1 << 32 | J_FOR_ALL, u64::MAX] {
        assert!(!sound(&[(at + 2, what)]), "{what}");
    }
    for i in 3..11 {
        assert!(!sound(&[(at + i, 1)]), "{i}");
    }
    for number in [2, 4] {
        assert!(!sound(&[(at, number)]), "{number}");
    }
}

/// The message with a J of each instrument in place of each J for all.
fn spelled_out(bytes: &[u8], ids: &[u64]) -> Vec<u8> {
    let fields = Draft::unseal(bytes).fields;
    let start = fields.iter().position(|it| it.0 == "279").expect("an entry");
    let mut entries: Vec<Vec<_>> = Vec::new();
    for it in &fields[start..] {
        match entries.last_mut() {
            Some(entry) if it.0 != "279" => entry.push(it.clone()),
            _ => entries.push(vec![it.clone()]),
        }
    }
    let is_for_all = |entry: &[(String, Vec<u8>)]| {
        entry.contains(&field(269, "J")) && !entry.iter().any(|it| it.0 == "48")
    };
    let mut spelled = fields[..start].to_vec();
    let mut count = 0;
    for entry in entries {
        let told: Vec<u64> = if is_for_all(&entry) { ids.to_vec() } else { vec![0] };
        for id in told {
            spelled.extend(entry.clone());
            if id > 0 {
                spelled.extend([field(48, id.to_string()), field(22, "8")]);
            }
            count += 1;
        }
    }
    let at = spelled.iter().position(|it| it.0 == "268").expect("268");
    spelled[at] = field(268, count.to_string());
    Draft { fields: spelled }.seal()
}

/// What an instrument's replay would meet.
fn steps(channel: &Channel, id: u64) -> Vec<(u64, Step)> {
    let of_it = channel.queue.iter().filter(|queued| queued.entry.concerns(id));
    of_it.map(|queued| (queued.number, queued.entry.step().clone())).collect()
}

/// A J for all does what a J of each followed instrument does, one after another, but for its one
/// place in the queue.
#[test]
fn as_a_j_of_each() {
    let mut met = [0, 0];
    for seed in 1..=40 {
        let mut keeper = Keeper::default();
        for call in script(seed, 1_000) {
            let before = keeper.channel.clone();
            run_plainly(&mut keeper, &call);
            let (Some(before), Some(after), Call::Feed { store_n: STORE, message }) =
                (before, &keeper.channel, &call)
            else {
                continue;
            };
            let Some(counted) = counted_of(message, before.depth) else { continue };
            let ids: Vec<u64> = before.instruments.iter().map(|it| it.id).collect();
            let resets = counted.entries.iter().filter(|entry| **entry == Entry::EmptyAll).count();
            let joining = counted.entries.len() + resets * (ids.len() - 1);
            if resets == 0 || before.queue.len() + joining > 256 {
                continue;
            }
            let spelled = spelled_out(message, &ids);
            let mut other = before.clone();
            if counted_of(&spelled, before.depth).is_none() {
                // More than 64 entries, or more than 8,192 bytes.
                continue;
            }
            other.feed(&spelled);
            assert_eq!((after.b, after.h, after.heard), (other.b, other.h, other.heard));
            assert_eq!(after.running, other.running);
            for (is, spelled) in after.instruments.iter().zip(&other.instruments) {
                assert_eq!(
                    (is.waiting, is.reason, &is.book),
                    (spelled.waiting, spelled.reason, &spelled.book)
                );
                assert_eq!(steps(after, is.id), steps(&other, is.id));
            }
            met[usize::from(before.waiting() > 0)] += 1;
        }
    }
    assert!(met.iter().all(|met| *met > 100), "{met:?}");
}
