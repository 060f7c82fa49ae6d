//! A recording is cut into its messages and replayed.

use selkavorn_second::replay::{calls, messages, Asked};
use selkavorn_second::run::run;

/// Text with `|` for SOH as bytes.
fn bytes(text: &str) -> Vec<u8> {
    text.bytes().map(|byte| if byte == b'|' { 1 } else { byte }).collect()
}

const SNAPSHOT: &str = "8=FIX.4.4|9=88|35=W|49=SHED|56=YARD|34=1|52=20250103-13:00:00.000|48=7|22=8|207=BVMF|369=0|911=2|268=0|10=030|";

#[test]
fn messages_end_with_tag_10() {
    let recording = bytes("8=a|110=1|10=000|8=b|10=1|c");
    assert_eq!(messages(&recording), [bytes("8=a|110=1|10=000|"), bytes("8=b|10=1|"), bytes("c")]);
    assert!(messages(b"").is_empty());
}

#[test]
fn a_snapshot_is_written_as_it_was_read() {
    let now = b"20250103-13:00:00".to_vec();
    let asked = Asked { depth: 0, ids: vec![7, 8], now, limit: 30, every: 0 };
    let lines = run(&calls(&bytes(SNAPSHOT), &asked));
    assert!(lines[0].starts_with("open 0"));
    assert!(lines[1].starts_with("feed 4 1"));
    assert_eq!(lines[2..], ["quote 22", &format!("write 0 110 {SNAPSHOT}"), "quote 21", "write 21 0"]);
}
