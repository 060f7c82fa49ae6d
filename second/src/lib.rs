//! A second keeper of order books, written from documents 01 and 02 alone, and the program
//! that makes calls and compares its answers with those of the proved archive.

// The keeper, in the order of document 01.
pub mod answer;
pub mod book;
pub mod calendar;
pub mod channel;
pub mod entry;
pub mod field;
pub mod frame;
pub mod instrument;
pub mod keeper;
pub mod loops;
pub mod lot;
pub mod message;
pub mod quote;
pub mod salvage;
pub mod writer;

// The archive's store, by docs/DESIGN.md.
pub mod days;
pub mod layout;

// Calls as text, their making, and the comparison.
pub mod compare;
pub mod flip;
pub mod gen;
pub mod happenings;
pub mod recording;
pub mod replay;
pub mod run;
pub mod script;
pub mod shorten;
pub mod shrink;
pub mod stats;
