//! Scripts: one call a line, words apart by one space, bytes as text.
//!
//! | line | call |
//! |---|---|
//! | `open STORE_N DEPTH ID,ID,..` | opening |
//! | `feed STORE_N MESSAGE` | feed |
//! | `quote STORE_N ID NOW LIMIT ROOM` | quote |
//! | `sell STORE_N ID QUANTITY NOW LIMIT ROOM`, or `buy` | lot down the bids, or up the offers |
//! | `write STORE_N ID SENDER TARGET K M TIME ROOM` | writing |
//! | `state STORE_N ID ROOM` | state |
//! | `board STORE_N ROOM` | summary of the board |
//! | `salvage FROM ROOM RECORDING` | walk of a recording from byte FROM on; it has no store |
//! | `damage INDEX=VALUE,INDEX=VALUE,.. CALL` | the call on the store with these numbers set, which are then restored |
//! | `wipe VALUE` | all 7,168 store numbers set to VALUE, as never opened |
//! | `dump` | none; the store's numbers are told |
//!
//! STORE_N is how many numbers of the store are lent, ROOM how many numbers or bytes of the
//! output, of a walk at most 512. In bytes `|` is SOH, `\xHH` is the byte HH and `\e` stands for no bytes at all; no
//! identifiers at all are `\e` too. Empty lines and lines that begin with `#` are passed over.
//! The store begins as 7,168 zeros.

use std::fmt::Write as _;

use crate::layout;
use crate::lot::Way;

#[derive(Clone, PartialEq, Eq, Debug)]
pub enum Call {
    Open {
        store_n: u64,
        depth: u64,
        ids: Vec<u64>,
    },
    Feed {
        store_n: u64,
        message: Vec<u8>,
    },
    Quote {
        store_n: u64,
        id: u64,
        now: Vec<u8>,
        limit: u64,
        room: u64,
    },
    Lot {
        way: Way,
        store_n: u64,
        id: u64,
        quantity: u64,
        now: Vec<u8>,
        limit: u64,
        room: u64,
    },
    Write {
        store_n: u64,
        id: u64,
        sender: Vec<u8>,
        target: Vec<u8>,
        k: u64,
        m: u64,
        time: Vec<u8>,
        room: u64,
    },
    State {
        store_n: u64,
        id: u64,
        room: u64,
    },
    Board {
        store_n: u64,
        room: u64,
    },
    Salvage {
        from: u64,
        room: u64,
        recording: Vec<u8>,
    },
    Damage {
        changes: Vec<(u64, u64)>,
        call: Box<Call>,
    },
    Wipe {
        value: u64,
    },
    Dump,
}

/// The most numbers that a script lends for a walk.
pub const MOST_WALK_ROOM: u64 = 512;

/// Bytes as a word of a script line.
pub fn bytes_text(bytes: &[u8]) -> String {
    if bytes.is_empty() {
        return String::from("\\e");
    }
    let mut text = String::with_capacity(bytes.len() + 8);
    for byte in bytes {
        match byte {
            1 => text.push('|'),
            b'|' | b'\\' => write!(text, "\\x{byte:02x}").expect("text"),
            33..=126 => text.push(char::from(*byte)),
            _ => write!(text, "\\x{byte:02x}").expect("text"),
        }
    }
    text
}

/// The bytes that a word of a script line stands for.
pub fn read_bytes(text: &str) -> Option<Vec<u8>> {
    if text == "\\e" {
        return Some(Vec::new());
    }
    let text = text.as_bytes();
    let mut bytes = Vec::with_capacity(text.len());
    let mut i = 0;
    while i < text.len() {
        match text[i] {
            b'|' => bytes.push(1),
            b'\\' => {
                bytes.push(hex_byte(text.get(i + 1..i + 4)?)?);
                i += 3;
            }
            byte => bytes.push(byte),
        }
        i += 1;
    }
    Some(bytes)
}

/// `xHH` as a byte.
fn hex_byte(text: &[u8]) -> Option<u8> {
    let text = std::str::from_utf8(text).ok()?.strip_prefix('x')?;
    u8::from_str_radix(text, 16).ok()
}

fn ids_text(ids: &[u64]) -> String {
    if ids.is_empty() {
        return String::from("\\e");
    }
    let ids: Vec<String> = ids.iter().map(u64::to_string).collect();
    ids.join(",")
}

fn changes_text(changes: &[(u64, u64)]) -> String {
    let changes: Vec<String> = changes.iter().map(|(index, value)| format!("{index}={value}")).collect();
    changes.join(",")
}

impl Call {
    /// The function that is called; none for a line that calls none.
    pub fn function(&self) -> Option<&'static str> {
        match self {
            Call::Open { .. } => Some("open"),
            Call::Feed { .. } => Some("feed"),
            Call::Quote { .. } => Some("quote"),
            Call::Lot { way, .. } => Some(way.name()),
            Call::Write { .. } => Some("write"),
            Call::State { .. } => Some("state"),
            Call::Board { .. } => Some("board"),
            Call::Salvage { .. } => Some("salvage"),
            Call::Damage { call, .. } => call.function(),
            Call::Wipe { .. } | Call::Dump => None,
        }
    }

    /// The call as a line of a script.
    pub fn line(&self) -> String {
        let t = bytes_text;
        match self {
            Call::Open { store_n, depth, ids } => format!("open {store_n} {depth} {}", ids_text(ids)),
            Call::Feed { store_n, message } => format!("feed {store_n} {}", t(message)),
            Call::Quote { store_n, id, now, limit, room } => {
                format!("quote {store_n} {id} {} {limit} {room}", t(now))
            }
            Call::Lot { way, store_n, id, quantity, now, limit, room } => {
                format!("{} {store_n} {id} {quantity} {} {limit} {room}", way.name(), t(now))
            }
            Call::Write { store_n, id, sender, target, k, m, time, room } => {
                let (sender, target, time) = (t(sender), t(target), t(time));
                format!("write {store_n} {id} {sender} {target} {k} {m} {time} {room}")
            }
            Call::State { store_n, id, room } => format!("state {store_n} {id} {room}"),
            Call::Board { store_n, room } => format!("board {store_n} {room}"),
            Call::Salvage { from, room, recording } => format!("salvage {from} {room} {}", t(recording)),
            Call::Damage { changes, call } => format!("damage {} {}", changes_text(changes), call.line()),
            Call::Wipe { value } => format!("wipe {value}"),
            Call::Dump => String::from("dump"),
        }
    }

    /// The call that a line of a script stands for.
    pub fn read(line: &str) -> Option<Call> {
        if let Some(rest) = line.strip_prefix("damage ") {
            return read_damage(rest);
        }
        let mut words = Words(line.split(' '));
        let call = match words.word()? {
            "open" => Call::Open { store_n: words.number()?, depth: words.number()?, ids: words.ids()? },
            "feed" => Call::Feed { store_n: words.number()?, message: words.bytes()? },
            "quote" => words.quote()?,
            "sell" => words.lot(Way::Sell)?,
            "buy" => words.lot(Way::Buy)?,
            "write" => words.write()?,
            "state" => Call::State { store_n: words.number()?, id: words.number()?, room: words.number()? },
            "board" => Call::Board { store_n: words.number()?, room: words.number()? },
            "salvage" => words.salvage()?,
            "wipe" => Call::Wipe { value: words.number()? },
            "dump" => Call::Dump,
            _ => return None,
        };
        words.word().is_none().then_some(call)
    }
}

/// The words of a line, read from the left.
struct Words<'a>(std::str::Split<'a, char>);

impl<'a> Words<'a> {
    fn word(&mut self) -> Option<&'a str> {
        self.0.next()
    }

    fn number(&mut self) -> Option<u64> {
        self.word()?.parse().ok()
    }

    fn bytes(&mut self) -> Option<Vec<u8>> {
        read_bytes(self.word()?)
    }

    fn ids(&mut self) -> Option<Vec<u64>> {
        match self.word()? {
            "\\e" => Some(Vec::new()),
            text => text.split(',').map(|id| id.parse().ok()).collect(),
        }
    }

    fn quote(&mut self) -> Option<Call> {
        Some(Call::Quote {
            store_n: self.number()?,
            id: self.number()?,
            now: self.bytes()?,
            limit: self.number()?,
            room: self.number()?,
        })
    }

    fn lot(&mut self, way: Way) -> Option<Call> {
        Some(Call::Lot {
            way,
            store_n: self.number()?,
            id: self.number()?,
            quantity: self.number()?,
            now: self.bytes()?,
            limit: self.number()?,
            room: self.number()?,
        })
    }

    fn write(&mut self) -> Option<Call> {
        Some(Call::Write {
            store_n: self.number()?,
            id: self.number()?,
            sender: self.bytes()?,
            target: self.bytes()?,
            k: self.number()?,
            m: self.number()?,
            time: self.bytes()?,
            room: self.number()?,
        })
    }

    fn salvage(&mut self) -> Option<Call> {
        let from = self.number()?;
        let room = self.number().filter(|room| *room <= MOST_WALK_ROOM)?;
        Some(Call::Salvage { from, room, recording: self.bytes()? })
    }
}

/// The changes of a damage line, and the call that stands behind them.
fn read_damage(text: &str) -> Option<Call> {
    let (changes, call) = text.split_once(' ')?;
    let change = |text: &str| {
        let (index, value) = text.split_once('=')?;
        let index = index.parse().ok().filter(|index| *index < layout::NUMBERS as u64)?;
        Some((index, value.parse().ok()?))
    };
    let changes = changes.split(',').map(change).collect::<Option<_>>()?;
    Some(Call::Damage { changes, call: Box::new(Call::read(call)?) })
}

/// A whole script; the error is the number of the first line that isn't a call.
pub fn read_script(text: &str) -> Result<Vec<Call>, usize> {
    let mut calls = Vec::new();
    for (i, line) in text.lines().enumerate() {
        if !line.is_empty() && !line.starts_with('#') {
            calls.push(Call::read(line).ok_or(i + 1)?);
        }
    }
    Ok(calls)
}

/// The lines of a script.
pub fn script_text(calls: &[Call]) -> String {
    calls.iter().map(|call| call.line() + "\n").collect()
}
