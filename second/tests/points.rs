//! Points of document 01 that could be read in two ways, each with the answer it has here.

use selkavorn_second::keeper::Keeper;

const STORE: u64 = 7_168;
const HEAD: &str = "34=1|52=20250103-13:00:00|";
const PLACE: &str = "270=1|271=1|37=A|272=20250103|273=12:00:00|";

/// Text with `|` for SOH as bytes.
fn bytes(text: &str) -> Vec<u8> {
    text.bytes().map(|byte| if byte == b'|' { 1 } else { byte }).collect()
}

/// A message with this text in 9 and in 10, where one is given.
fn sealed(body: &str, count: Option<&str>, trailer: Option<&str>) -> Vec<u8> {
    let right = body.len().to_string();
    let text = format!("8=FIX.4.4|9={}|{body}", count.unwrap_or(&right));
    let sum: u64 = bytes(&text).iter().map(|byte| u64::from(*byte)).sum();
    let right = format!("{:03}", sum % 256);
    bytes(&format!("{text}10={}|", trailer.unwrap_or(&right)))
}

/// The answer of a fresh order-depth keeper of instrument 7.
fn answer(message: &[u8]) -> u64 {
    let mut keeper = Keeper::default();
    keeper.open(STORE, 0, &[7]);
    keeper.feed(STORE, message).0
}

fn of(body: &str) -> u64 {
    answer(&sealed(body, None, None))
}

/// An X with this after its head.
fn x(rest: &str) -> u64 {
    of(&format!("35=X|{HEAD}{rest}"))
}

/// A W of instrument 7 with this after its head.
fn w(rest: &str) -> u64 {
    of(&format!("35=W|{HEAD}48=7|22=8|369=0|911=1|{rest}"))
}

#[test]
fn frame_before_sum_before_type_before_fields() {
    let good = format!("35=0|{HEAD}");
    assert_eq!(answer(&[]), 11);
    assert_eq!(answer(&sealed(&good, None, None)), 0);
    assert_eq!(answer(&sealed(&good, None, Some("000"))), 12);
    assert_eq!(answer(&sealed(&good, Some("0"), Some("000"))), 11);
    assert_eq!(answer(&sealed(&good, None, Some("00"))), 11);
    assert_eq!(answer(&sealed("35=A|8=FIX.4.4|", None, Some("999"))), 12);
    assert_eq!(of("35=A|8=FIX.4.4|"), 13);
    assert_eq!(of("35=0|34=0|"), 14);
}

#[test]
fn lengths() {
    let body = |n: usize| format!("35=0|{HEAD}58={}|", "x".repeat(n));
    let around = sealed(&body(5_000), None, None).len() - 5_000;
    assert_eq!(of(&body(8_192 - around)), 0);
    assert_eq!(of(&body(8_193 - around)), 11);
}

#[test]
fn ends_stand_once() {
    for again in ["8=FIX.4.4|", "9=5|", "35=0|", "10=000|"] {
        assert_eq!(of(&format!("35=0|{HEAD}{again}")), 14);
        assert_eq!(x(&format!("268=0|{again}")), 14);
    }
}

#[test]
fn other_types() {
    let other = |rest: &str| of(&format!("35=f|{rest}"));
    assert_eq!(other(&format!("{HEAD}268=x|268=9|279=9|48=0|48=0|")), 0);
    assert_eq!(other(&format!("268=0|{HEAD}")), 14);
    assert_eq!(other("34=1|268=0|52=20250103-13:00:00|"), 14);
    assert_eq!(other(&format!("{HEAD}34=1|")), 14);
    assert_eq!(other(&format!("{HEAD}268=0|52=20250103-13:00:00|")), 14);
}

#[test]
fn places_of_tags_in_x() {
    assert_eq!(x("268=0|"), 0);
    assert_eq!(x(""), 14);
    assert_eq!(x("268=0|268=0|"), 14);
    assert_eq!(x("268=0|58=a|49=b|49=b|"), 0);
    for tag in ["48=7|", "22=8|", "207=BVMF|", "369=0|", "911=1|", "270=1|", "279=0|", "269=2|"] {
        assert_eq!(x(&format!("{tag}268=0|")), 14, "{tag} before 268");
        assert_eq!(x(&format!("268=0|{tag}")), 14, "{tag} before an entry");
    }
    assert_eq!(x("268=1|58=a|279=0|58=a|269=2|"), 0);
    assert_eq!(x("268=1|290=1|279=0|269=2|"), 14);
    assert_eq!(x("268=1|279=0|269=2|369=0|"), 14);
    assert_eq!(x("268=1|279=0|269=2|290=a|290=a|"), 14);
    assert_eq!(x("268=2|279=0|269=2|"), 14);
    assert_eq!(x("268=1|279=0|269=2|279=0|269=2|"), 14);
}

#[test]
fn values_that_are_read_in_x() {
    let bid = |action: &str, rest: &str| x(&format!("268=1|279={action}|269=0|{rest}"));
    assert_eq!(bid("0", &format!("48=9|22=8|290=1|{PLACE}")), 0);
    assert_eq!(bid("0", "48=9|22=8|290=1|270=1.|271=1|37=A|272=20250103|273=12:00:00|"), 14);
    assert_eq!(bid("0", &format!("48=9|22=8|290=1|346=x|{PLACE}")), 0);
    assert_eq!(bid("2", "48=9|22=8|290=1|270=x|37= |272=x|"), 0);
    assert_eq!(bid("2", "48=9|22=8|290=1|207=x|"), 14);
    assert_eq!(bid("2", "48=09|22=8|290=1|"), 14);
    assert_eq!(bid("5", "48=9|22=8|290=1|"), 14);
}

#[test]
fn j_and_passed_over_entries() {
    let entry = |rest: &str| x(&format!("268=1|{rest}"));
    assert_eq!(entry("279=4|269=J|48=7|22=8|290=x|"), 0);
    assert_eq!(entry("279=5|269=J|48=7|22=8|"), 14);
    assert_eq!(entry("279=0|269=J|48=7|"), 14);
    assert_eq!(entry("279=0|269=J|48=7|22=8|207=x|"), 14);
    assert_eq!(entry("279=4|269=00|48=x|22=x|207=x|290=x|"), 0);
    assert_eq!(entry("279=5|269=2|"), 14);
    assert_eq!(entry("279=0|"), 14);
}

#[test]
fn snapshots() {
    let place = |side: u32, p: u32| format!("269={side}|{PLACE}290={p}|");
    assert_eq!(w("268=0|"), 4);
    assert_eq!(w("207=BVMF|268=0|"), 4);
    assert_eq!(w("207=X|268=0|"), 14);
    assert_eq!(w("279=0|268=0|"), 14);
    assert_eq!(w("268=1|269=J|290=x|"), 4);
    assert_eq!(w("268=1|269=J|279=0|"), 14);
    assert_eq!(w("268=1|269=2|48=7|"), 14);
    let mixed = [place(1, 1), place(0, 1), String::from("269=J|"), place(1, 2)].concat();
    assert_eq!(w(&format!("268=4|{mixed}")), 4);
    assert_eq!(w(&format!("268=2|{}{}", place(1, 1), place(0, 2))), 14);
    let many: String = (1..=21).map(|p| place(0, p)).collect();
    assert_eq!(w(&format!("268=21|{many}")), 9);
}

#[test]
fn fields_come_before_the_channel() {
    assert_eq!(of("35=W|34=1|52=20250103-13:00:00|48=8|22=8|369=0|911=1|268=0|"), 5);
    assert_eq!(of("35=W|34=1|52=20250103-13:00:00|48=8|22=8|369=0|911=0|268=0|"), 14);
    let mut keeper = Keeper::default();
    keeper.open(STORE, 0, &[7]);
    let first = sealed(&format!("35=0|{HEAD}"), None, None);
    assert_eq!(keeper.feed(STORE, &first), (0, 1));
    assert_eq!(keeper.feed(STORE, &first), (2, 1));
    assert_eq!(keeper.feed(STORE, &sealed(&format!("35=X|{HEAD}"), None, None)), (14, 1));
}

#[test]
fn before_anything_is_heard() {
    let mut keeper = Keeper::default();
    assert_eq!(keeper.feed(STORE, b"x"), (17, 0));
    assert_eq!(keeper.open(STORE - 1, 9, &[]), 17);
    assert_eq!(keeper.board(STORE, 5), Err(17));
    assert_eq!(keeper.open(STORE, 0, &[7]), 0);
    assert_eq!(keeper.board(STORE, 5), Ok([0, 0, 0, 0, 1]));
    assert_eq!(keeper.board(STORE, 4), Err(18));
    assert_eq!(keeper.board(STORE - 1, 4), Err(17));
    let now = b"20250103-13:00:00";
    assert_eq!(keeper.quote(STORE, 7, now, 30, 17), Err(21));
    let taken = sealed(&format!("35=W|{HEAD}48=7|22=8|369=0|911=1|268=0|"), None, None);
    assert_eq!(keeper.feed(STORE, &taken), (4, 0));
    assert_eq!(keeper.board(STORE, 5), Ok([0, 0, 0, 0, 0]));
    assert_eq!(keeper.quote(STORE, 7, now, 30, 17), Err(22));
    assert_eq!(keeper.quote(STORE, 8, now, 30, 17), Err(20));
    assert_eq!(keeper.quote(STORE, 8, now, 86_401, 17), Err(18));
    assert_eq!(keeper.quote(STORE - 1, 8, now, 86_401, 17), Err(17));
}
