//! The command line of the second keeper.

use std::io::{self, Read, Write};
use std::process::ExitCode;

use selkavorn_second::compare::{compare, flipped, flips_found, Driver, Outcome};
use selkavorn_second::flip::FLIPS;
use selkavorn_second::happenings::Happenings;
use selkavorn_second::keeper::Keeper;
use selkavorn_second::run::{run, run_plainly};
use selkavorn_second::script::{read_script, script_text, Call};
use selkavorn_second::stats::Histogram;
use selkavorn_second::{gen, recording, replay, shrink};

const USAGE: &str = "usage:
  selkavorn-second [OPTION..] run < script > answers
  selkavorn-second gen SEED COUNT > script
  selkavorn-second stats FIRST_SEED LAST_SEED COUNT
  selkavorn-second [OPTION..] compare FIRST_SEED LAST_SEED COUNT DRIVER [DRIVER_ARGUMENT..]
  selkavorn-second [OPTION..] sweep FIRST_SEED LAST_SEED DRIVER [DRIVER_ARGUMENT..]
  selkavorn-second replay DEPTH ID,ID,.. NOW LIMIT EVERY < recording > answers
  selkavorn-second replay-calls DEPTH ID,ID,.. NOW LIMIT EVERY < recording > script
  selkavorn-second pack < script > recording for the program replay
  selkavorn-second lines < script > lines that the program replay must write
  selkavorn-second flips FIRST_SEED LAST_SEED COUNT
  selkavorn-second shrink N < script > shorter script that still shows flip N
options:
  --flip N             with flip N on
  --only CALL,CALL,..  these calls alone";

/// What holds for the whole command.
#[derive(Default)]
struct Options<'a> {
    flip: usize,
    only: Option<&'a str>,
}

fn main() -> ExitCode {
    let arguments: Vec<String> = std::env::args().skip(1).collect();
    let words: Vec<&str> = arguments.iter().map(String::as_str).collect();
    match command(&words) {
        Ok(code) => code,
        Err(error) => {
            eprintln!("{error}");
            ExitCode::from(2)
        }
    }
}

/// Does what the command line asks for.
fn command(words: &[&str]) -> Result<ExitCode, String> {
    let mut options = Options::default();
    let mut words = words;
    loop {
        match words {
            ["--only", only, rest @ ..] => (options.only, words) = (Some(*only), rest),
            ["--flip", n, rest @ ..] => (options.flip, words) = (number(n)? as usize, rest),
            _ => break,
        }
    }
    match words {
        ["run"] => run_script(&options),
        ["gen", seed, count] => generate(seed, count),
        ["stats", first, last, count] => stats(first, last, count),
        ["compare", first, last, count, driver @ ..] => {
            let count = number(count)? as usize;
            compare_seeds([first, last], driver, &options, |seed| gen::script(seed, count))
        }
        ["sweep", first, last, driver @ ..] => compare_seeds([first, last], driver, &options, gen::sweep),
        ["replay", options @ ..] => replay_recording(options),
        ["replay-calls", options @ ..] => output(&script_text(&recorded(options)?)),
        ["pack"] => output_bytes(&recording::pack(&input()?)?),
        ["lines"] => output(&recording::lines(&input()?)),
        ["flips", first, last, count] => flips(first, last, count),
        ["shrink", n] => shrink_script(number(n)? as usize),
        _ => Err(String::from(USAGE)),
    }
}

fn number(text: &str) -> Result<u64, String> {
    text.parse().map_err(|_| format!("`{text}` is not a number"))
}

fn input() -> Result<Vec<Call>, String> {
    let mut text = String::new();
    io::stdin().read_to_string(&mut text).map_err(|error| error.to_string())?;
    read_script(&text).map_err(|line| format!("line {line} is not a call"))
}

fn output(text: &str) -> Result<ExitCode, String> {
    output_bytes(text.as_bytes())
}

fn output_bytes(bytes: &[u8]) -> Result<ExitCode, String> {
    io::stdout().write_all(bytes).map_err(|error| error.to_string())?;
    Ok(ExitCode::SUCCESS)
}

/// Runs a script.
fn run_script(options: &Options) -> Result<ExitCode, String> {
    let calls = kept(input()?, options);
    let lines: String = flipped(options.flip, &calls).iter().map(|line| format!("{line}\n")).collect();
    output(&lines)
}

fn generate(seed: &str, count: &str) -> Result<ExitCode, String> {
    output(&script_text(&gen::script(number(seed)?, number(count)? as usize)))
}

/// Prints how often each answer number is reached, and each happening of loops and J for all.
fn stats(first: &str, last: &str, count: &str) -> Result<ExitCode, String> {
    let (mut answers, mut happenings) = (Histogram::default(), Happenings::default());
    for seed in number(first)?..=number(last)? {
        let calls = gen::script(seed, number(count)? as usize);
        answers.add(&run(&calls));
        happenings.add(&calls);
    }
    output(&format!("{}\n{}", answers.text(), happenings.text()))
}

/// The calls of these functions alone, where some are named; lines that call none stay.
fn kept(mut calls: Vec<Call>, options: &Options) -> Vec<Call> {
    if let Some(only) = options.only {
        let named = |name| only.split(',').any(|kept| kept == name);
        calls.retain(|call| call.function().into_iter().all(named));
    }
    calls
}

/// Compares a driver with the second keeper; ends with 1 after a difference, with 2 where no call was compared.
fn compare_seeds(
    seeds: [&str; 2],
    driver: &[&str],
    options: &Options,
    script: impl Fn(u64) -> Vec<Call>,
) -> Result<ExitCode, String> {
    let [first, last] = [number(seeds[0])?, number(seeds[1])?];
    let (path, arguments) = driver.split_first().ok_or(USAGE)?;
    let driver = Driver { path, arguments, flip: options.flip };
    match compare(&driver, first..=last, |seed| kept(script(seed), options))? {
        Outcome::Differs(report) => {
            output(&report)?;
            Ok(ExitCode::FAILURE)
        }
        Outcome::Same(answers) if answers.calls() == 0 => {
            Err(format!("seeds {first} to {last}: no call was compared"))
        }
        Outcome::Same(answers) => {
            let calls = answers.calls();
            output(&format!("{}seeds {first} to {last}, {calls} calls: no difference\n", answers.text()))
        }
    }
}

/// The calls that replay the recording on the standard input.
fn recorded(options: &[&str]) -> Result<Vec<Call>, String> {
    let [depth, ids, now, limit, every] = options else { return Err(String::from(USAGE)) };
    let asked = replay::Asked {
        depth: number(depth)?,
        ids: ids.split(',').map(number).collect::<Result<_, _>>()?,
        now: now.as_bytes().to_vec(),
        limit: number(limit)?,
        every: number(every)? as usize,
    };
    let mut recording = Vec::new();
    io::stdin().read_to_end(&mut recording).map_err(|error| error.to_string())?;
    Ok(replay::calls(&recording, &asked))
}

/// Answers, quotes and snapshots of a recording, a line a call.
fn replay_recording(options: &[&str]) -> Result<ExitCode, String> {
    let mut keeper = Keeper::default();
    let lines = recorded(options)?.into_iter().map(|call| run_plainly(&mut keeper, &call).0 + "\n");
    output(&lines.collect::<String>())
}

/// Shortens a script that shows a flip.
fn shrink_script(flip_number: usize) -> Result<ExitCode, String> {
    let calls = input()?;
    let shortest = shrink::shrink(&calls, &mut |calls| run(calls) != flipped(flip_number, calls));
    output(&script_text(&shortest))
}

/// Says for each flip the first seed that shows it; ends with 1 where none shows one.
fn flips(first: &str, last: &str, count: &str) -> Result<ExitCode, String> {
    let found = flips_found(number(first)?..=number(last)?, number(count)? as usize);
    let mut text = String::new();
    for (i, ((_, what), seed)) in FLIPS.iter().zip(&found).enumerate() {
        let seed = seed.map_or(String::from("no seed"), |seed| format!("seed {seed}"));
        text += &format!("{:>3}  {seed:>8}  {what}\n", i + 1);
    }
    output(&text)?;
    let all = found.iter().all(Option::is_some);
    Ok(if all { ExitCode::SUCCESS } else { ExitCode::FAILURE })
}
