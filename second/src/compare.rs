//! The comparison: the same script through a driver program and through the second keeper.

use std::collections::BTreeSet;
use std::io::{Read, Write};
use std::process::{Command, Stdio};
use std::time::{Duration, Instant};

use crate::run::run;
use crate::script::{script_text, Call};
use crate::shrink::shrink;
use crate::stats::Histogram;
use crate::{flip, gen};

/// A driver: the path of its program and the arguments to give it; and the flip, or 0, with which
/// the second keeper is compared with it.
pub struct Driver<'a> {
    pub path: &'a str,
    pub arguments: &'a [&'a str],
    pub flip: usize,
}

/// The first line in which the two differ.
#[derive(Clone, PartialEq, Eq, Debug)]
pub struct Difference {
    /// The place of the call in its script, from 0.
    pub place: usize,
    pub second: String,
    pub driver: String,
}

impl Driver<'_> {
    /// The lines that the driver prints for a script; a driver that fails adds a last line.
    pub fn lines(&self, calls: &[Call]) -> Result<Vec<String>, String> {
        let mut child = Command::new(self.path)
            .args(self.arguments)
            .stdin(Stdio::piped())
            .stdout(Stdio::piped())
            .stderr(Stdio::null())
            .spawn()
            .map_err(|error| format!("cannot start {}: {error}", self.path))?;
        let mut input = child.stdin.take().ok_or("no input")?;
        let script = script_text(calls);
        // A driver that ends early leaves the rest unread; its missing lines tell.
        let writer = std::thread::spawn(move || drop(input.write_all(script.as_bytes())));
        let mut bytes = Vec::new();
        let mut output = child.stdout.take().ok_or("no output")?;
        output.read_to_end(&mut bytes).map_err(|error| error.to_string())?;
        let status = child.wait().map_err(|error| error.to_string())?;
        writer.join().map_err(|_| String::from("writing failed"))?;
        let mut lines: Vec<String> = String::from_utf8_lossy(&bytes).lines().map(String::from).collect();
        if !status.success() {
            lines.push(format!("driver ended with {status}"));
        }
        Ok(lines)
    }

    /// The first difference that a script shows.
    pub fn difference(&self, calls: &[Call]) -> Result<Option<Difference>, String> {
        Ok(first_difference(&flipped(self.flip, calls), &self.lines(calls)?))
    }
}

/// The first difference between two runs of lines.
pub fn first_difference(second: &[String], driver: &[String]) -> Option<Difference> {
    let none = String::from("(no line)");
    let longer = second.len().max(driver.len());
    let line = |lines: &[String], i: usize| lines.get(i).unwrap_or(&none).clone();
    (0..longer)
        .map(|place| Difference { place, second: line(second, place), driver: line(driver, place) })
        .find(|difference| difference.second != difference.driver)
}

/// The second keeper's lines, with a flip on or none.
pub fn flipped(flip_number: usize, calls: &[Call]) -> Vec<String> {
    flip::turn_on(flip_number);
    let lines = run(calls);
    flip::turn_on(0);
    lines
}

/// What a comparison came to.
pub enum Outcome {
    /// The answers that both gave.
    Same(Histogram),
    /// The report of the first difference.
    Differs(String),
}

/// Compares the scripts of seeds one after another, up to the first difference.
pub fn compare(
    driver: &Driver,
    seeds: std::ops::RangeInclusive<u64>,
    script: impl Fn(u64) -> Vec<Call>,
) -> Result<Outcome, String> {
    let mut answers = Histogram::default();
    for seed in seeds {
        let calls = script(seed);
        let second = flipped(driver.flip, &calls);
        if let Some(found) = first_difference(&second, &driver.lines(&calls)?) {
            return Ok(Outcome::Differs(report(driver, seed, &calls, &found)));
        }
        answers.add(&second);
    }
    Ok(Outcome::Same(answers))
}

/// How long a script is shortened.
const SHORTENING: Duration = Duration::from_secs(180);

/// What differs, and the shortest script found that still shows a difference.
fn report(driver: &Driver, seed: u64, calls: &[Call], found: &Difference) -> String {
    let until = calls.len().min(found.place + 1);
    let end = Instant::now() + SHORTENING;
    let differs =
        &mut |calls: &[Call]| Instant::now() < end && matches!(driver.difference(calls), Ok(Some(_)));
    let shortest = shrink(&calls[..until], differs);
    let mut text = format!(
        "# seed {seed}, call {}: second `{}`, driver `{}`\n",
        found.place + 1,
        found.second,
        found.driver
    );
    if let Ok(Some(last)) = driver.difference(&shortest) {
        text += &format!(
            "# {} calls show it, the last: second `{}`, driver `{}`\n",
            shortest.len(),
            last.second,
            last.driver
        );
    }
    text + &store_difference(driver, &shortest) + &script_text(&shortest)
}

/// The store's numbers in which the two differ after a script.
fn store_difference(driver: &Driver, calls: &[Call]) -> String {
    let with_dump = [calls, &[Call::Dump]].concat();
    let Ok(lines) = driver.lines(&with_dump) else { return String::new() };
    let second = flipped(driver.flip, &with_dump).pop().unwrap_or_default();
    let first = lines.get(calls.len()).cloned().unwrap_or_default();
    if second == first || !first.starts_with("dump") {
        return String::new();
    }
    let (in_second, in_driver) = (only_in(&second, &first), only_in(&first, &second));
    format!("# store numbers only in second:{in_second}\n# store numbers only in driver:{in_driver}\n")
}

/// How many store numbers that differ are told.
const TOLD: usize = 12;

/// The words of a line that another doesn't have, the first of them.
fn only_in(line: &str, other: &str) -> String {
    let others: BTreeSet<&str> = other.split(' ').collect();
    let only: Vec<&str> = line.split(' ').filter(|word| !others.contains(word)).collect();
    let told: String = only.iter().take(TOLD).map(|word| format!(" {word}")).collect();
    let rest = only.len().saturating_sub(TOLD);
    if rest > 0 {
        format!("{told} and {rest} more")
    } else {
        told
    }
}

/// For each flip, the first seed whose script shows it.
pub fn flips_found(seeds: std::ops::RangeInclusive<u64>, count: usize) -> Vec<Option<u64>> {
    let mut found = vec![None; flip::FLIPS.len()];
    for seed in seeds {
        let calls = gen::script(seed, count);
        let right = run(&calls);
        for (i, found) in found.iter_mut().enumerate().filter(|(_, found)| found.is_none()) {
            if flipped(i + 1, &calls) != right {
                *found = Some(seed);
            }
        }
    }
    found
}
