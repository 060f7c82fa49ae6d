//! The walk of a recording: it takes what a search over all lengths takes, its pieces cover the
//! recording once, and walks in little room give together what one gives.

use selkavorn_second::frame;
use selkavorn_second::gen::script;
use selkavorn_second::salvage::{pieces, salvage, stretch, Piece};
use selkavorn_second::script::{read_bytes, Call};

/// The recordings that scripts walk, of at most so many bytes.
fn recordings(longest: usize) -> Vec<Vec<u8>> {
    let walked = |call| match call {
        Call::Salvage { recording, .. } if recording.len() <= longest => Some(recording),
        _ => None,
    };
    let mut all: Vec<Vec<u8>> = (1..=12).flat_map(|seed| script(seed, 1_000)).filter_map(walked).collect();
    all.dedup();
    assert!(all.len() > 100, "only {} recordings", all.len());
    all
}

/// The lengths of all stretches from the first byte on that 11 and 12 would not refuse.
fn all_stretches(rest: &[u8]) -> Vec<usize> {
    (1..=rest.len()).filter(|length| frame::open(&rest[..*length]).is_ok()).collect()
}

/// The length of the stretch that tag 9 names: up to its own SOH, the bytes it counts, and 10.
fn named_by_9(rest: &[u8]) -> Option<usize> {
    let mut fields = rest.split_inclusive(|byte| *byte == 1);
    let (begin, count) = (fields.next()?, fields.next()?);
    let digits = std::str::from_utf8(count.strip_prefix(b"9=")?.strip_suffix(&[1])?).ok()?;
    Some(begin.len() + count.len() + digits.parse::<usize>().ok()? + "10=000|".len())
}

/// The pieces that a walk tells, as kind, start and length.
fn told(numbers: &[u64]) -> Vec<[u64; 3]> {
    let count = numbers[1] as usize;
    numbers[2..].chunks(3).take(count).map(|piece| [piece[0], piece[1], piece[2]]).collect()
}

fn of_pieces(pieces: &[Piece]) -> Vec<[u64; 3]> {
    let number = |piece: &Piece| [u64::from(piece.message), piece.start as u64, piece.length as u64];
    pieces.iter().map(number).collect()
}

#[test]
fn the_search_is_that_over_all_lengths() {
    let mut taken = 0;
    for recording in recordings(700) {
        for place in 0..recording.len() {
            let rest = &recording[place..];
            let all = all_stretches(rest);
            assert!(all.len() <= 1, "{all:?} at {place}");
            assert_eq!(stretch(rest), all.first().copied());
            if let [length] = all[..] {
                assert_eq!(named_by_9(rest), Some(length));
                assert!((26..=8_192).contains(&length));
                taken += 1;
            }
        }
    }
    assert!(taken > 100, "only {taken} messages");
}

#[test]
fn pieces_cover_a_recording_once() {
    for recording in recordings(20_000) {
        for from in [0, recording.len() / 3, recording.len()] {
            let pieces = pieces(&recording, from);
            let ends = std::iter::once(from).chain(pieces.iter().map(Piece::end));
            let starts = pieces.iter().map(|piece| piece.start).chain([recording.len()]);
            assert!(ends.eq(starts));
            assert!(pieces.iter().all(|piece| piece.length > 0));
            assert!(pieces.windows(2).all(|pair| pair[0].message || pair[1].message));
            for piece in pieces.iter().filter(|piece| piece.message) {
                assert!(frame::open(&recording[piece.start..piece.end()]).is_ok());
            }
        }
    }
}

/// In every piece that was passed over no byte begins a message.
#[test]
fn nothing_whole_is_passed_over() {
    for recording in recordings(700) {
        for run in pieces(&recording, 0).iter().filter(|piece| !piece.message) {
            for place in run.start..run.end() {
                assert!(all_stretches(&recording[place..]).is_empty(), "{place}");
            }
        }
    }
}

#[test]
fn walks_in_little_room_give_what_one_gives() {
    for recording in recordings(2_000) {
        let (all, end) = (of_pieces(&pieces(&recording, 0)), recording.len() as u64);
        for room in 5..=40 {
            let (mut joined, mut from) = (Vec::new(), 0);
            loop {
                let numbers = salvage(&recording, from, room).expect("a walk");
                let some = told(&numbers);
                let most = (room as usize - 2) / 3;
                assert!(some.len() == most || numbers[0] == end);
                assert_eq!(numbers.len() as u64, room);
                assert!(numbers[2 + 3 * some.len()..].iter().all(|number| *number == 0));
                joined.extend(some);
                if numbers[0] == end {
                    break;
                }
                assert!(numbers[0] > from);
                from = numbers[0];
            }
            assert_eq!(joined, all, "in room of {room}");
        }
    }
}

/// A walk of a recording as text, from its first byte on.
fn walk(text: &str) -> Vec<[u64; 3]> {
    of_pieces(&pieces(&read_bytes(text).expect("bytes"), 0))
}

const SHORTEST: &str = "8=FIX.4.4|9=5|35=0|10=163|";

#[test]
fn a_message_and_what_lies_around_it() {
    assert_eq!(walk(SHORTEST), [[1, 0, 26]]);
    assert_eq!(walk(&format!("?|{SHORTEST}{SHORTEST}8=")), [[0, 0, 2], [1, 2, 26], [1, 28, 26], [0, 54, 2]]);
    assert_eq!(walk(&SHORTEST.replace("163", "164")), [[0, 0, 26]]);
    assert_eq!(walk(&SHORTEST.replace("9=5", "9=05").replace("163", "211")), [[0, 0, 27]]);
    assert_eq!(walk(&format!("8=FIX.4.4|9=8=FIX.4.4|{SHORTEST}")), [[0, 0, 22], [1, 22, 26]]);
}

/// 13 and 14 are not asked: the outer message's 8, 9, 35 and 10 stand twice.
#[test]
fn a_message_in_a_message() {
    let outer = format!("8=FIX.4.4|9=34|35=A|58={SHORTEST}10=108|");
    assert_eq!(walk(&outer), [[1, 0, 56]]);
    assert_eq!(walk(&outer.replace("108", "109")), [[0, 0, 23], [1, 23, 26], [0, 49, 7]]);
    assert_eq!(
        walk(&outer.replace("9=34", "9=35").replace("108", "109")),
        [[0, 0, 23], [1, 23, 26], [0, 49, 7]]
    );
    let bytes = read_bytes(&outer).expect("bytes");
    assert_eq!(of_pieces(&pieces(&bytes, 1)), [[0, 1, 22], [1, 23, 26], [0, 49, 7]]);
}

#[test]
fn the_longest_message() {
    let of = |filled: usize, count: usize, sum: u32| {
        let text = format!("8=FIX.4.4|9={count}|35=0|58={}|10={sum:03}|", "x".repeat(filled));
        let bytes = read_bytes(&text).expect("bytes");
        let before: u32 = bytes[..bytes.len() - 7].iter().map(|byte| u32::from(*byte)).sum();
        assert_eq!(before % 256, sum);
        (bytes.len(), of_pieces(&pieces(&bytes, 0)), all_stretches(&bytes))
    };
    assert_eq!(of(8_159, 8_168, 120), (8_192, vec![[1, 0, 8_192]], vec![8_192]));
    assert_eq!(of(8_160, 8_169, 241), (8_193, vec![[0, 0, 8_193]], vec![]));
}

#[test]
fn arguments() {
    let bytes = read_bytes(SHORTEST).expect("bytes");
    assert_eq!(salvage(&bytes, 0, 4), Err(18));
    assert_eq!(salvage(&bytes, 27, 5), Err(18));
    assert_eq!(salvage(&bytes, u64::MAX, 0), Err(18));
    assert_eq!(salvage(&bytes, 0, 6), Ok(vec![26, 1, 1, 0, 26, 0]));
    assert_eq!(salvage(&bytes, 1, 5), Ok(vec![26, 1, 0, 1, 25]));
    assert_eq!(salvage(&bytes, 26, 5), Ok(vec![26, 0, 0, 0, 0]));
    assert_eq!(salvage(b"", 0, 5), Ok(vec![0, 0, 0, 0, 0]));
}
