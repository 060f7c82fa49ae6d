//! The answer numbers of document 01, one constant a row, and the one that document 02, K11 adds.

/// Counted in order, or a quote, writing or opening done.
pub const DONE: u64 = 0;
/// Gap, counted.
pub const GAP: u64 = 1;
/// Old.
pub const OLD: u64 = 2;
/// Counted, queue let go.
pub const LET_GO: u64 = 3;
/// Snapshot taken.
pub const TAKEN: u64 = 4;
/// Snapshot of an instrument that isn't followed.
pub const SNAPSHOT_NOT_FOLLOWED: u64 = 5;
/// Snapshot of an instrument that is already Live.
pub const ALREADY_LIVE: u64 = 6;
/// S below B.
pub const BELOW_B: u64 = 7;
/// S above H.
pub const ABOVE_H: u64 = 8;
/// A side over 20.
pub const SIDE_OVER_20: u64 = 9;
/// Snapshot whose replay broke.
pub const REPLAY_BROKE: u64 = 10;
/// A breach of the frame.
pub const FRAME: u64 = 11;
/// Three digits in tag 10 with another sum.
pub const CHECKSUM: u64 = 12;
/// Another type than X, W, 0, f, y, B.
pub const TYPE: u64 = 13;
/// Any breach under Fields.
pub const FIELDS: u64 = 14;
/// Store under 7,168 numbers, or unsound.
pub const STORE: u64 = 17;
/// An argument outside its range.
pub const ARGUMENT: u64 = 18;
/// Instrument not followed.
pub const NOT_FOLLOWED: u64 = 20;
/// Instrument Waiting.
pub const WAITING: u64 = 21;
/// Nothing heard yet (H = 0).
pub const NOTHING_HEARD: u64 = 22;
/// Age below 0.
pub const AGE_BELOW_0: u64 = 23;
/// Age above the limit.
pub const AGE_ABOVE_LIMIT: u64 = 24;
/// Output too short for the message.
pub const OUTPUT_SHORT: u64 = 25;
/// A sum of a lot that doesn't fit a signed 64-bit number.
pub const SUM_OVER: u64 = 35;
