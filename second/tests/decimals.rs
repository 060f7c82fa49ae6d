//! Request K6 of document 02: prices of up to 8 decimals, held in hundred-millionths.

use selkavorn_second::field;
use selkavorn_second::keeper::{Keeper, Writing};
use selkavorn_second::lot::{Lot, Way};

const STORE: u64 = 7_168;
const NOW: &[u8] = b"20250103-13:00:00";

/// Prices with 9 digits before the point and 8 after it, and the least, as they are written and held.
const PRICES: [(&str, i64); 8] = [
    ("999999999.99999999", 99_999_999_999_999_999),
    ("-999999999.99999999", -99_999_999_999_999_999),
    ("123456789.12345678", 12_345_678_912_345_678),
    ("-123456789.12345678", -12_345_678_912_345_678),
    ("100000000.00000001", 10_000_000_000_000_001),
    ("-100000000.00000001", -10_000_000_000_000_001),
    ("0.00000001", 1),
    ("-0.00000001", -1),
];

/// Prices that are written shorter: as they are read, held and written.
const SHORTENED: [(&str, i64, &str); 6] = [
    ("24.01000000", 2_401_000_000, "24.01"),
    ("-000000000.50000000", -50_000_000, "-0.5"),
    ("0.01234560", 1_234_560, "0.0123456"),
    ("7.10000010", 710_000_010, "7.1000001"),
    ("000000001.00000000", 100_000_000, "1"),
    ("-0.00000000", 0, "0"),
];

/// A message from what stands between 9 and 10, with `|` for SOH.
fn message(body: &str) -> Vec<u8> {
    let text = format!("8=FIX.4.4|9={}|{body}", body.len()).replace('|', "\u{1}");
    let sum: u64 = text.bytes().map(u64::from).sum();
    format!("{text}10={:03}\u{1}", sum % 256).into_bytes()
}

/// A W of instrument 7 with this price bid and offered, the only one of its loop.
fn w(price: &str) -> Vec<u8> {
    let place =
        |side| format!("269={side}|270={price}|271=5|37=A|346=1|272=20250103|273=12:00:00.000|290=1|");
    let head = "35=W|34=1|52=20250103-13:00:00.000|48=7|22=8|369=1|911=1|268=2|";
    message(&format!("{head}{}{}", place(0), place(1)))
}

/// An X that puts this price before the others of a side.
fn x(number: u64, side: u32, price: &str) -> Vec<u8> {
    let place = format!("270={price}|271=5|37=A|346=1|272=20250103|273=12:00:00.000|");
    let head = format!("35=X|34={number}|52=20250103-13:00:00.000|268=1|");
    message(&format!("{head}279=0|269={side}|48=7|22=8|290=1|{place}"))
}

/// A board that has heard message 1 and follows instrument 7, which waits.
fn opened(depth: u64) -> Keeper {
    let mut keeper = Keeper::default();
    assert_eq!(keeper.open(STORE, depth, &[7]), 0);
    assert_eq!(keeper.feed(STORE, &message("35=0|34=1|52=20250103-13:00:00.000|")), (0, 1));
    keeper
}

/// A board with this price bid and offered, taken from a snapshot or from the stream.
fn boards(price: &str) -> Vec<Keeper> {
    let of_depth = |depth| {
        let mut snapshot = opened(depth);
        assert_eq!(snapshot.feed(STORE, &w(price)), (4, 0));
        let mut stream = opened(depth);
        assert_eq!(stream.feed(STORE, &w("1")), (4, 0));
        assert_eq!(stream.feed(STORE, &x(2, 0, price)), (0, 0));
        assert_eq!(stream.feed(STORE, &x(3, 1, price)), (0, 0));
        [snapshot, stream]
    };
    [0, 1].into_iter().flat_map(of_depth).collect()
}

/// The snapshot of instrument 7.
fn written(keeper: &Keeper) -> Vec<u8> {
    let writing = Writing { id: 7, sender: b"SHED", target: b"YARD", k: 1, m: 1, time: NOW };
    keeper.write(STORE, &writing, 8_192).unwrap()
}

/// What a lot of instrument 7 brings or costs.
fn lot(keeper: &Keeper, way: Way, quantity: u64) -> Result<i64, u64> {
    let lot = Lot { way, id: 7, quantity, now: NOW, limit_s: 30 };
    keeper.lot(STORE, &lot, 5).map(|given| given[3] as i64)
}

#[test]
fn read_quoted_sold_and_written() {
    let as_written = PRICES.map(|(text, held)| (text, held, text));
    for (read, held, text) in as_written.into_iter().chain(SHORTENED) {
        assert_eq!(field::price(read.as_bytes()), Some(held), "{read}");
        for keeper in boards(read) {
            let quote = keeper.quote(STORE, 7, NOW, 30, 17).unwrap();
            assert_eq!([quote[4], quote[11]], [held as u64; 2], "{read}");
            for way in [Way::Sell, Way::Buy] {
                assert_eq!(lot(&keeper, way, 1), Ok(held), "{read}");
                assert_eq!(lot(&keeper, way, 5), Ok(5 * held), "{read}");
            }
            let snapshot = String::from_utf8(written(&keeper)).unwrap();
            for side in [0, 1] {
                let entry = format!("\u{1}269={side}\u{1}270={text}\u{1}");
                assert!(snapshot.contains(&entry), "{read}: {snapshot}");
            }
        }
    }
}

/// What is written reads back as the same book, and is written again byte for byte.
#[test]
fn round_trip() {
    for (text, _) in PRICES {
        for keeper in boards(text) {
            let channel = keeper.channel.as_ref().unwrap();
            let mut again = opened(channel.depth as u64);
            for number in 2..=channel.h {
                again.feed(STORE, &message(&format!("35=0|34={number}|52=20250103-13:00:00.000|")));
            }
            let snapshot = written(&keeper);
            assert_eq!(again.feed(STORE, &snapshot), (4, 0), "{text}");
            assert_eq!(again.words(), keeper.words(), "{text}");
            assert_eq!(written(&again), snapshot, "{text}");
        }
    }
}

#[test]
fn nine_decimals_and_ten_digits_are_14() {
    for text in ["1.123456789", "-0.000000001", "0.000000000", "999999999.999999999", "1000000000.99999999"] {
        assert_eq!(field::price(text.as_bytes()), None, "{text}");
        let mut keeper = opened(0);
        let waiting = keeper.words();
        assert_eq!(keeper.feed(STORE, &w(text)), (14, 1), "{text}");
        assert_eq!(keeper.feed(STORE, &x(2, 0, text)), (14, 1), "{text}");
        assert_eq!(keeper.words(), waiting, "{text}");
        assert_eq!(keeper.feed(STORE, &w("1")), (4, 0), "{text}");
        let live = keeper.words();
        assert_eq!(keeper.feed(STORE, &x(2, 1, text)), (14, 0), "{text}");
        assert_eq!(keeper.words(), live, "{text}");
    }
}
