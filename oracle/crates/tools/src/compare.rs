//! Runs two commands on the same input, stops at the first difference and shrinks it.

use std::time::{Duration, Instant};

use form::parse::parse;
use form::play::Player;
use form::{print, trace};
use rules::Rules;

use crate::batch::run;
use crate::shrink::{MOST_RUNS, Shrinker, simpler_line, simpler_record};
use crate::{scripts, traces};

/// Scripts given to one run of a command; each begins afresh, so they can stand in one input.
const BATCH: u64 = 200;

/// The same where a difference is expected soon.
const SMALL_BATCH: u64 = 40;

const CALLS: [&str; 7] = [
    "fresh", "request", "question", "tick", "complete", "fail", "drain",
];

/// A shrunk input on which the two differ, as text to print.
struct Difference {
    seen: String,
    lines: usize,
}

fn differ(form: &str, input: &[u8], a: &str, b: &str) -> Result<bool, String> {
    Ok(run(a, form, input)? != run(b, form, input)?)
}

fn calls(output: &str) -> u64 {
    let first = |line: &str| CALLS.contains(&line.split(' ').next().unwrap_or_default());
    output.lines().filter(|line| first(line)).count() as u64
}

/// The calls of the batch, or the script in it on which the commands differ.
fn batch(
    seed: u64,
    from: u64,
    to: u64,
    a: &str,
    b: &str,
) -> Result<Result<u64, Vec<String>>, String> {
    let made: Vec<_> = (from..to)
        .map(|n| scripts::text(&scripts::script(seed, n)))
        .collect();
    let all = made.concat();
    let (left, right) = (
        run(a, "script", all.as_bytes())?,
        run(b, "script", all.as_bytes())?,
    );
    if left == right {
        return Ok(Ok(calls(&left)));
    }
    for script in made {
        if differ("script", script.as_bytes(), a, b)? {
            return Ok(Err(script.lines().map(str::to_string).collect()));
        }
    }
    Err("the commands differ on scripts in one input and not on any alone".to_string())
}

/// Whether each line is of the form and asks for no more than a server's types hold.
fn well_formed(lines: &[String]) -> bool {
    let mut player = Player::default();
    let mut rules = Rules::default();
    let mut step = |line: &String| {
        let parsed = parse(line)?;
        player.step(&mut rules, &parsed, &mut String::new())
    };
    lines.iter().all(|line| step(line).is_some())
}

fn text(lines: &[String]) -> String {
    lines.iter().map(|line| format!("{line}\n")).collect()
}

fn shrink_script(
    lines: Vec<String>,
    a: &str,
    b: &str,
    most_runs: usize,
) -> Result<Difference, String> {
    let shows = |lines: &[String]| {
        well_formed(lines) && differ("script", text(lines).as_bytes(), a, b).unwrap_or(false)
    };
    let simpler = |line: &String| simpler_line(line);
    let small = Shrinker {
        shows: &mut { shows },
        simpler: &simpler,
        most_runs,
    }
    .shrink(lines);
    let input = text(&small);
    let first = first_difference("script", input.as_bytes(), a, b)?;
    Ok(Difference {
        seen: format!("{input}{first}"),
        lines: small.len(),
    })
}

/// The first line in which two outputs part.
fn first_difference(form: &str, input: &[u8], a: &str, b: &str) -> Result<String, String> {
    let (left, right) = (run(a, form, input)?, run(b, form, input)?);
    if left == right {
        return Err("the difference did not come again".to_string());
    }
    let (mut x, mut y) = (left.lines(), right.lines());
    loop {
        let (l, r) = (x.next(), y.next());
        if l != r {
            let or_end = |line: Option<&str>| line.unwrap_or("(nothing more)").to_string();
            return Ok(format!("first:  {}\nsecond: {}", or_end(l), or_end(r)));
        }
    }
}

/// The records of a trace; what follows the last whole one stands as a last item.
fn records(bytes: &[u8]) -> Vec<Vec<u8>> {
    let mut all = Vec::new();
    let mut rest = bytes;
    while let Some((_, after)) = trace::next(rest) {
        all.push(rest[..rest.len() - after.len()].to_vec());
        rest = after;
    }
    if !rest.is_empty() {
        all.push(rest.to_vec());
    }
    all
}

fn shrink_trace(bytes: &[u8], a: &str, b: &str) -> Result<Difference, String> {
    let shows = |records: &[Vec<u8>]| differ("trace", &records.concat(), a, b).unwrap_or(false);
    let simpler = |record: &Vec<u8>| simpler_record(record);
    let small = Shrinker {
        shows: &mut { shows },
        simpler: &simpler,
        most_runs: MOST_RUNS,
    }
    .shrink(records(bytes));
    let first = first_difference("trace", &small.concat(), a, b)?;
    let shown: String = small
        .iter()
        .map(|record| print::hex(record) + "\n")
        .collect();
    Ok(Difference {
        seen: format!("{shown}{first}"),
        lines: small.len(),
    })
}

/// Counts of scripts and calls without a difference, or the difference, shrunk.
pub fn scripts(seed: u64, count: u64, a: &str, b: &str) -> Result<String, String> {
    let mut total = 0;
    for from in (0..count).step_by(BATCH as usize) {
        match batch(seed, from, (from + BATCH).min(count), a, b)? {
            Ok(calls) => total += calls,
            Err(script) => return Err(shrink_script(script, a, b, MOST_RUNS)?.seen),
        }
    }
    Ok(format!("{count} scripts, {total} calls, no difference"))
}

pub fn traces(seed: u64, count: u64, a: &str, b: &str) -> Result<String, String> {
    for number in 0..count {
        let bytes = traces::trace(seed, number);
        if differ("trace", &bytes, a, b)? {
            return Err(shrink_trace(&bytes, a, b)?.seen);
        }
    }
    Ok(format!("{count} traces, no difference"))
}

pub fn file(form: &str, path: &str, a: &str, b: &str) -> Result<(), String> {
    let input = std::fs::read(path).map_err(|e| format!("{path}: {e}"))?;
    if !differ(form, &input, a, b)? {
        println!("{path}: no difference");
        return Ok(());
    }
    if form == "trace" {
        return Err(shrink_trace(&input, a, b)?.seen);
    }
    let text = String::from_utf8(input).map_err(|e| e.to_string())?;
    let lines = text.lines().map(str::to_string).collect();
    Err(shrink_script(lines, a, b, MOST_RUNS)?.seen)
}

/// For a command that is known to be wrong: says how soon that showed and how small it became in so many runs.
pub fn expect_difference(
    seed: u64,
    count: u64,
    runs: usize,
    a: &str,
    b: &str,
) -> Result<(), String> {
    let start = Instant::now();
    for from in (0..count).step_by(SMALL_BATCH as usize) {
        let to = (from + SMALL_BATCH).min(count);
        if let Err(script) = batch(seed, from, to, a, b)? {
            let before = script.len();
            let found = shrink_script(script, a, b, runs)?;
            let (after, ms) = (found.lines, start.elapsed().as_millis());
            println!("found within {to} scripts, {before} lines shrunk to {after} ({ms} ms)");
            println!("{}", found.seen);
            return Ok(());
        }
    }
    Err(format!("no difference in {count} scripts"))
}

/// Compares batch after batch, each of a new seed, until the time is over.
pub fn soak(seconds: u64, seed: u64, a: &str, b: &str) -> Result<(), String> {
    let start = Instant::now();
    let (mut rounds, mut script_calls) = (0, 0);
    while start.elapsed() < Duration::from_secs(seconds) {
        let now = seed + rounds;
        match batch(now, 0, BATCH, a, b)? {
            Ok(calls) => script_calls += calls,
            Err(script) => return Err(shrink_script(script, a, b, MOST_RUNS)?.seen),
        }
        traces(now, 20, a, b)?;
        rounds += 1;
    }
    let minutes = start.elapsed().as_secs_f64() / 60.0;
    let a_minute = |n: u64| (n as f64 / minutes) as u64;
    let (all, last) = (rounds * BATCH, seed + rounds - 1);
    let traces = rounds * 20;
    println!(
        "seeds {seed} to {last}: {all} scripts, {script_calls} calls, {traces} traces, no difference"
    );
    println!(
        "a minute: {} scripts, {} calls",
        a_minute(all),
        a_minute(script_calls)
    );
    Ok(())
}
