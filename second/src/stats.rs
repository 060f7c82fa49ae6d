//! A histogram of answers, by call and number.

use std::collections::{BTreeMap, BTreeSet};

/// The columns of a histogram: the nine calls, and calls on a store with numbers changed.
const COLUMNS: [&str; 10] =
    ["open", "feed", "quote", "sell", "buy", "write", "state", "board", "salvage", "damage"];

/// Counts of answer lines by call and answer number.
#[derive(Default)]
pub struct Histogram(BTreeMap<(&'static str, u64), u64>);

impl Histogram {
    /// Counts these lines; lines of no call are passed over.
    pub fn add(&mut self, lines: &[String]) {
        for line in lines {
            let mut words = line.split(' ');
            let name = words.next().unwrap_or_default();
            let Some(column) = COLUMNS.into_iter().find(|column| *column == name) else { continue };
            let answer = words.find_map(|word| word.parse().ok()).unwrap_or(0);
            *self.0.entry((column, answer)).or_default() += 1;
        }
    }

    /// All calls.
    pub fn calls(&self) -> u64 {
        self.0.values().sum()
    }

    /// A row for each answer number, and the sums.
    pub fn text(&self) -> String {
        let numbers: BTreeSet<u64> = self.0.keys().map(|key| key.1).collect();
        let count = |column, number| self.0.get(&(column, number)).copied().unwrap_or(0);
        let mut text = row("answer", &COLUMNS, "all");
        for number in &numbers {
            let counts = COLUMNS.map(|column| count(column, *number));
            text += &row(&number.to_string(), &counts, &counts.iter().sum::<u64>().to_string());
        }
        let sums = COLUMNS.map(|column| numbers.iter().map(|number| count(column, *number)).sum::<u64>());
        text + &row("all", &sums, &self.calls().to_string())
    }
}

/// A row of a table.
fn row<T: ToString>(first: &str, cells: &[T], last: &str) -> String {
    let cells: String = cells.iter().map(|cell| format!("{:>9}", cell.to_string())).collect();
    format!("{first:>6}{cells}{last:>9}\n")
}
