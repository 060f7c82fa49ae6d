//! The recordings of the program `replay` show every flip that a recording can show.

use std::fs;

use selkavorn_second::flip::{turn_on, Flip, FLIPS};
use selkavorn_second::recording::lines;
use selkavorn_second::script::{read_script, Call};

fn scripts() -> Vec<Vec<Call>> {
    let folder = concat!(env!("CARGO_MANIFEST_DIR"), "/recordings");
    let paths = fs::read_dir(folder).expect("the recordings").map(|entry| entry.expect("a recording").path());
    paths.map(|path| read_script(&fs::read_to_string(path).expect("text")).expect("a script")).collect()
}

/// Flips of what the program never does: it lends 7,168 numbers and the room that a call needs.
const UNSEEN: [Flip; 7] = [
    Flip::QuoteRoom16,
    Flip::ShortBeforeWaiting,
    Flip::BoardRoom4,
    Flip::LotRoom4,
    Flip::LotRoomLast,
    Flip::Store7167,
    Flip::ArgumentsFirst,
];

#[test]
fn recordings_show_flips() {
    let scripts = scripts();
    let plain: Vec<String> = scripts.iter().map(|calls| lines(calls)).collect();
    let mut missed = Vec::new();
    for (i, (flip, what)) in FLIPS.iter().enumerate() {
        turn_on(i + 1);
        let shown = scripts.iter().zip(&plain).any(|(calls, plain)| lines(calls) != *plain);
        turn_on(0);
        if shown == UNSEEN.contains(flip) {
            missed.push(*what);
        }
    }
    assert!(missed.is_empty(), "{missed:#?}");
}
