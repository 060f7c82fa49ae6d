//! A comparison that compared nothing is no success.

use std::process::{Command, Output};

/// Runs the program with a driver that answers nothing.
fn second(words: &[&str]) -> Output {
    Command::new(env!("CARGO_BIN_EXE_selkavorn-second"))
        .args(words)
        .arg("true")
        .output()
        .expect("the program runs")
}

#[test]
fn no_call_compared_is_told() {
    for words in [&["compare", "2", "1", "1000"][..], &["compare", "1", "3", "0"], &["sweep", "2", "1"]] {
        let ended = second(words);
        assert_eq!(ended.status.code(), Some(2), "{words:?}");
        assert!(ended.stdout.is_empty(), "{words:?}");
        assert!(String::from_utf8_lossy(&ended.stderr).contains("no call was compared"), "{words:?}");
    }
}

#[test]
fn a_silent_driver_differs() {
    assert_eq!(second(&["compare", "1", "1", "1"]).status.code(), Some(1));
}
