//! A small stored set of inputs and answers in which every branch of the rules occurs.

use std::collections::{BTreeMap, BTreeSet};
use std::fs;
use std::path::Path;

use form::parse::{Line, parse};
use rules::Hits;

use crate::batch::run;
use crate::report::{of_script, of_trace};
use crate::shrink::{MOST_RUNS, Shrinker};
use crate::{scripts, traces};

/// What a file of its own is taken to cost: few larger traces are easier to keep than many small ones.
const FILE: usize = 2000;

type Names = BTreeSet<String>;

struct Candidate {
    number: u64,
    size: usize,
    names: Names,
}

fn names(hits: &Hits) -> Names {
    hits.reached().into_iter().map(str::to_string).collect()
}

fn script_names(lines: &[Line]) -> Names {
    names(&of_script(lines, &mut BTreeMap::new()))
}

/// What traces are chosen for: the branches of their own form, and a positive answer of every service. The
/// other branches are in the scripts, which show more of each call.
fn trace_names(bytes: &[u8]) -> Names {
    let wanted = |name: &String| name.starts_with("trace") || name.ends_with(" positive");
    names(&of_trace(bytes, &mut BTreeMap::new()))
        .into_iter()
        .filter(wanted)
        .collect()
}

/// Chooses greedily by what is new in a candidate for its size; says what each one chosen was chosen for.
fn cover(from: &[Candidate]) -> Vec<(u64, Names)> {
    let mut wanted: Names = from.iter().flat_map(|c| c.names.iter().cloned()).collect();
    let mut chosen = Vec::new();
    while !wanted.is_empty() {
        let worth = |c: &&Candidate| c.names.intersection(&wanted).count() * 1_000_000 / c.size;
        let best = from
            .iter()
            .max_by_key(worth)
            .expect("what is wanted is in some candidate");
        let new: Names = best.names.intersection(&wanted).cloned().collect();
        wanted.retain(|name| !new.contains(name));
        chosen.push((best.number, new));
    }
    chosen
}

fn choose_scripts(seed: u64, count: u64) -> String {
    let candidate = |number| {
        let lines = scripts::script(seed, number);
        Candidate {
            number,
            size: scripts::text(&lines).len(),
            names: script_names(&lines),
        }
    };
    let all: Vec<Candidate> = (0..count).map(candidate).collect();
    let mut text = String::new();
    for (number, wanted) in cover(&all) {
        let mut shows =
            |lines: &[Line]| stands_alone(lines) && wanted.is_subset(&script_names(lines));
        let mut shrinker = Shrinker {
            shows: &mut shows,
            simpler: &|_| Vec::new(),
            most_runs: MOST_RUNS,
        };
        text.push_str(&scripts::text(
            &shrinker.shrink(scripts::script(seed, number)),
        ));
    }
    text
}

/// Scripts are stored in one file, so each must begin its own configuration, server and value table.
fn stands_alone(lines: &[Line]) -> bool {
    let has = |is: fn(&Line) -> bool| lines.iter().any(is);
    has(|l| matches!(l, Line::Config(..)))
        && has(|l| matches!(l, Line::Fresh | Line::Hold))
        && has(|l| matches!(l, Line::Values))
}

fn choose_traces(seed: u64, count: u64) -> Vec<Vec<u8>> {
    let candidate = |number| {
        let bytes = traces::trace(seed, number);
        Candidate {
            number,
            size: bytes.len() + FILE,
            names: trace_names(&bytes),
        }
    };
    let all: Vec<Candidate> = (0..count).map(candidate).collect();
    cover(&all)
        .into_iter()
        .map(|(number, _)| traces::trace(seed, number))
        .collect()
}

pub fn choose(
    seed: u64,
    scripts: u64,
    traces: u64,
    dir: &str,
    command: &str,
) -> Result<(), String> {
    let store = |name: &str, bytes: &[u8]| {
        fs::write(format!("{dir}/{name}"), bytes).map_err(|e| format!("{dir}/{name}: {e}"))
    };
    let text = choose_scripts(seed, scripts);
    store("scripts.txt", text.as_bytes())?;
    store(
        "scripts.out",
        run(command, "script", text.as_bytes())?.as_bytes(),
    )?;
    for (nth, bytes) in choose_traces(seed, traces).iter().enumerate() {
        store(&format!("trace-{nth:02}.bin"), bytes)?;
        store(
            &format!("trace-{nth:02}.out"),
            run(command, "trace", bytes)?.as_bytes(),
        )?;
    }
    replay(dir, command)
}

/// Every stored answer comes again, and the stored inputs still reach every branch.
pub fn replay(dir: &str, command: &str) -> Result<(), String> {
    let read = |path: &Path| fs::read(path).map_err(|e| format!("{}: {e}", path.display()));
    let mut hits = Hits::default();
    let mut files = 0;
    for entry in fs::read_dir(dir).map_err(|e| format!("{dir}: {e}"))? {
        let path = entry.map_err(|e| e.to_string())?.path();
        let form = match path.extension().and_then(|e| e.to_str()) {
            Some("txt") => "script",
            Some("bin") => "trace",
            _ => continue,
        };
        let input = read(&path)?;
        if run(command, form, &input)?.as_bytes() != read(&path.with_extension("out"))? {
            return Err(format!(
                "{}: {command} gives another answer than stored",
                path.display()
            ));
        }
        hits.add(&reached(form, &input)?);
        files += 1;
    }
    match hits.unreached()[..] {
        [] => println!(
            "{files} stored inputs, {} branches, answers as stored",
            hits.reached().len()
        ),
        ref left => return Err(format!("the sample does not reach: {}", left.join("; "))),
    }
    Ok(())
}

fn reached(form: &str, input: &[u8]) -> Result<Hits, String> {
    if form == "trace" {
        return Ok(of_trace(input, &mut BTreeMap::new()));
    }
    let text = String::from_utf8_lossy(input);
    let lines: Option<Vec<Line>> = text.lines().map(parse).collect();
    Ok(of_script(
        &lines.ok_or("the stored scripts do not parse")?,
        &mut BTreeMap::new(),
    ))
}
