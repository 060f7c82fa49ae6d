//! The marked cases M1 to M14 of document 01, as request K6 of document 02 has them, and its message of
//! 110 bytes.

use selkavorn_second::book::{Action, Book, Maker, Place, SideName, Step};
use selkavorn_second::calendar::{Date, TimeOfDay};
use selkavorn_second::field;
use selkavorn_second::frame;
use selkavorn_second::keeper::{Keeper, Writing, LONGEST_WRITING};

const STORE: u64 = 7_168;
const WHOLE: &str = "8=FIX.4.4|9=88|35=W|49=SHED|56=YARD|34=1|52=20250103-13:00:00.000|48=7|22=8|207=BVMF|369=0|911=1|268=0|10=029|";

/// Text with `|` for SOH as bytes.
fn bytes(text: &str) -> Vec<u8> {
    text.bytes().map(|byte| if byte == b'|' { 1 } else { byte }).collect()
}

/// A message from what stands between 9 and 10.
fn message(body: &str) -> Vec<u8> {
    let text = format!("8=FIX.4.4|9={}|{body}", body.len());
    let sum: u64 = bytes(&text).iter().map(|byte| u64::from(*byte)).sum();
    bytes(&format!("{text}10={:03}|", sum % 256))
}

/// An X numbered `number` with these entries.
fn x(number: u64, entries: &[String]) -> Vec<u8> {
    let group = entries.concat();
    let n = entries.len();
    message(&format!("35=X|34={number}|52=20250103-13:00:00.000|268={n}|{group}"))
}

/// A bid of instrument 7 at a position.
fn bid(action: u32, position: usize) -> String {
    format!("279={action}|269=0|48=7|22=8|290={position}|270=24.01|271=5|37=A|272=20250103|273=12:00:00|")
}

/// A W of instrument 7 with `bids` bids, the first of a loop of two.
fn w(last: u64, bids: usize) -> Vec<u8> {
    let entry = |p| format!("269=0|270=1|271=5|37=A|272=20250103|273=12:00:00|290={p}|");
    let group: String = (1..=bids).map(entry).collect();
    message(&format!("35=W|34=1|52=20250103-14:00:00|48=7|22=8|369={last}|911=2|268={bids}|{group}"))
}

/// An opened order-depth keeper that follows these instruments.
fn opened(ids: &[u64]) -> Keeper {
    let mut keeper = Keeper::default();
    assert_eq!(keeper.open(STORE, 0, ids), 0);
    keeper
}

/// A keeper with instrument 7 Live and `bids` bids held.
fn live(bids: usize) -> Keeper {
    let mut keeper = opened(&[7]);
    assert_eq!(keeper.feed(STORE, &x(1, &[])), (0, 1));
    assert_eq!(keeper.feed(STORE, &w(1, bids)), (4, 0));
    keeper
}

fn place(price: i64) -> Place {
    let date = Date::read(b"20250103").unwrap();
    let time = TimeOfDay::read(b"12:00:00").unwrap();
    Place { price, size: 1, maker: Maker::Orders(1), date, time }
}

/// The prices of a side of a, b, c (1, 2, 3) after an action.
fn after(action: Action) -> Vec<i64> {
    let mut book = Book { bids: vec![place(1), place(2), place(3)], offers: vec![] };
    book.take(&Step::Act(SideName::Bid, action)).unwrap();
    book.bids.iter().map(|place| place.price).collect()
}

#[test]
fn m1_to_m4_prices() {
    assert_eq!(field::price(b"24.01"), Some(2_401_000_000));
    assert_eq!(field::price(b"-0.5"), Some(-50_000_000));
    assert_eq!(field::price(b"-0"), Some(0));
    assert_eq!(field::price(b"1."), None);
    assert_eq!(field::price(b"1.123456789"), None);
    assert_eq!(field::price(b"1.12345678"), Some(112_345_678));
}

#[test]
fn m5_dates() {
    assert!(Date::read(b"20240229").is_some());
    assert!(Date::read(b"20250229").is_none());
    assert!(Date::read(b"19000229").is_none());
    assert!(Date::read(b"00000229").is_some());
}

#[test]
fn m6_to_m8_sides() {
    assert_eq!(after(Action::New(2, place(9))), [1, 9, 2, 3]);
    assert_eq!(after(Action::DeleteThru(2)), [3]);
    assert_eq!(after(Action::DeleteFrom(2)), [1]);
    assert_eq!(after(Action::Change(2, place(9))), [1, 9, 3]);
    assert_eq!(after(Action::Delete(2)), [1, 3]);
}

/// The state after a new at `position` of `held`.
fn state_after_new(held: usize, position: usize) -> [u64; 4] {
    let mut keeper = live(held);
    keeper.feed(STORE, &x(2, &[bid(0, position)]));
    keeper.state(STORE, 7, 4).unwrap()
}

#[test]
fn m9_and_m10_reasons() {
    assert_eq!(state_after_new(3, 5), [1, 1, 0, 0]);
    assert_eq!(state_after_new(20, 21), [1, 2, 0, 0]);
    assert_eq!(state_after_new(20, 22), [1, 1, 0, 0]);
    assert_eq!(state_after_new(19, 20), [0, 0, 20, 0]);
}

/// A fresh keeper after 34 = 1, 3, 2, where 3 brings a bid.
fn after_m11() -> Keeper {
    let mut keeper = opened(&[7, 8]);
    assert_eq!(keeper.feed(STORE, &x(1, &[])), (0, 2));
    assert_eq!(keeper.feed(STORE, &x(3, &[bid(0, 1)])), (1, 2));
    assert_eq!(keeper.feed(STORE, &x(2, &[])), (2, 2));
    keeper
}

#[test]
fn m11_numbers() {
    let keeper = after_m11();
    let channel = keeper.channel.as_ref().unwrap();
    assert_eq!((channel.b, channel.h), (2, 3));
    assert_eq!(keeper.board(STORE, 5), Ok([3, 20_250_103, 130_000_000, 2, 0b11]));
}

#[test]
fn m12_snapshots() {
    let mut keeper = after_m11();
    assert_eq!(keeper.feed(STORE, &w(1, 1)), (7, 2));
    assert_eq!(keeper.feed(STORE, &w(4, 1)), (8, 2));
    assert_eq!(keeper.feed(STORE, &w(2, 1)), (4, 1));
    assert_eq!(keeper.state(STORE, 7, 4), Ok([0, 0, 2, 0]));
    assert_eq!(keeper.board(STORE, 5), Ok([3, 20_250_103, 130_000_000, 2, 0b10]));
    let quote = keeper.quote(STORE, 7, b"20250103-13:00:00", 30, 17).unwrap();
    assert_eq!(quote[..5], [3, 20_250_103, 130_000_000, 1, 2_401_000_000]);
}

#[test]
fn m13_ages() {
    let keeper = live(1);
    let ask = |now: &[u8]| keeper.quote(STORE, 7, now, 30, 17).err();
    assert_eq!(ask(b"20250103-13:00:30.000"), None);
    assert_eq!(ask(b"20250103-13:00:30.001"), Some(24));
    assert_eq!(ask(b"20250103-12:59:59.999"), Some(23));
}

#[test]
fn m14_the_whole_message() {
    let whole = bytes(WHOLE);
    assert_eq!(whole.len(), 110);
    let sum: u64 = whole[..103].iter().map(|byte| u64::from(*byte)).sum();
    assert_eq!(sum % 256, 29);
    assert!(frame::open(&whole).is_ok());
    let mut keeper = opened(&[7]);
    assert_eq!(keeper.feed(STORE, &whole), (4, 0));
    let writing = Writing { id: 7, sender: b"SHED", target: b"YARD", k: 1, m: 1, time: b"20250103-13:00:00" };
    assert_eq!(keeper.write(STORE, &writing, 110), Ok(whole));
    assert_eq!(keeper.write(STORE, &writing, 109), Err(25));
}

#[test]
fn lengths_of_writings() {
    let mut keeper = opened(&[7, 999_999_999_999_999_999]);
    assert_eq!(keeper.feed(STORE, &w(0, 0)), (4, 1));
    let shortest = Writing { id: 7, sender: b"A", target: b"B", k: 1, m: 1, time: b"20250103-13:00:00" };
    assert_eq!(keeper.write(STORE, &shortest, 8192).unwrap().len(), 104);
    assert_eq!(keeper.feed(STORE, &x(4_294_967_295, &[])), (1, 2));
    assert_eq!(keeper.feed(STORE, &longest_w()), (4, 1));
    let name = b"ABCDEFGHIJKLMNOP";
    let longest = Writing {
        id: 999_999_999_999_999_999,
        sender: name,
        target: name,
        k: 16,
        m: 16,
        time: b"20250103-13:00:00",
    };
    assert_eq!(LONGEST_WRITING, 4_307);
    assert_eq!(keeper.write(STORE, &longest, 4_307).unwrap().len(), 4_307);
    assert_eq!(keeper.write(STORE, &longest, 4_306), Err(25));
}

/// A W whose book takes the most bytes to write.
fn longest_w() -> Vec<u8> {
    let entry = |side, p| {
        format!("269={side}|270=-999999999.99999999|271=999999999999|37=ABCDEFGHIJKLMNOP|272=99991231|273=23:59:60.999|290={p}|")
    };
    let side = |side| (1..=20).map(|p| entry(side, p)).collect::<String>();
    let head = "34=1|52=20250103-13:00:00|48=999999999999999999|22=8|369=4294967295|911=2|268=40|";
    message(&format!("35=W|{head}{}{}", side(0), side(1)))
}
