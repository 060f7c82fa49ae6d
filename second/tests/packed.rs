//! The recordings that the program `replay` reads, and the lines that it must write, are those of
//! the scripts in `recordings/`.

use std::fs;

use selkavorn_second::recording::{lines, pack};
use selkavorn_second::script::read_script;

const REPLAY: &str = concat!(env!("CARGO_MANIFEST_DIR"), "/../crates/replay");

#[test]
fn recordings_are_packed() {
    let names = fs::read_to_string(format!("{REPLAY}/args")).expect("the names");
    let mut expected = String::new();
    for name in names.lines() {
        let path = format!("{}/recordings/{name}.txt", env!("CARGO_MANIFEST_DIR"));
        let calls = read_script(&fs::read_to_string(path).expect("a script")).expect("calls");
        let packed = fs::read(format!("{REPLAY}/data/{name}")).expect("a recording");
        assert!(pack(&calls).expect("records") == packed, "{name} is packed anew by scripts/record");
        expected += &format!("recording {name}\n{}", lines(&calls));
    }
    let stdout = fs::read_to_string(format!("{REPLAY}/stdout")).expect("the lines");
    assert!(stdout == expected, "stdout is written anew by scripts/record");
}
