//! How often each answer and each branch of the rules is reached by what a seed generates.

use std::collections::BTreeMap;

use form::parse::Line;
use form::{play, trace};
use rules::{Hits, Rules};

use crate::{scripts, traces};

/// The branches of one script, and its calls by name and result.
pub fn of_script(lines: &[Line], answers: &mut BTreeMap<String, u64>) -> Hits {
    let mut rules = Rules::default();
    let mut out = String::new();
    play::script(&mut rules, &scripts::text(lines), &mut out);
    count_answers("", &out, answers);
    rules.hits
}

/// The branches of one trace.
pub fn of_trace(bytes: &[u8], answers: &mut BTreeMap<String, u64>) -> Hits {
    let mut rules = Rules::default();
    let mut out = String::new();
    trace::run(&mut rules, bytes, &mut out);
    rules::note_trace(bytes, &mut rules.hits);
    count_answers("trace ", &out, answers);
    rules.hits
}

const CALLS: [&str; 9] = [
    "fresh", "request", "question", "tick", "complete", "fail", "drain", "1", "2",
];

fn count_answers(head: &str, out: &str, answers: &mut BTreeMap<String, u64>) {
    for line in out.lines() {
        let mut words = line.split(' ');
        if let (Some(name), Some(result)) = (words.next(), words.next())
            && CALLS.contains(&name)
        {
            *answers
                .entry(format!("{head}{name}, result {result}"))
                .or_default() += 1;
        }
    }
}

pub fn branches(seed: u64, script_count: u64, trace_count: u64) -> Result<(), String> {
    let mut answers = BTreeMap::new();
    let mut hits = Hits::default();
    for number in 0..script_count {
        hits.add(&of_script(&scripts::script(seed, number), &mut answers));
    }
    for number in 0..trace_count {
        hits.add(&of_trace(&traces::trace(seed, number), &mut answers));
    }
    for (name, count) in answers.iter().chain(hits.counts()) {
        println!("{count:>9}  {name}");
    }
    let calls: u64 = answers.values().sum();
    let (reached, all) = (hits.reached().len(), hits.counts().len());
    println!(
        "{script_count} scripts, {trace_count} traces, {calls} calls: {reached} of {all} branches"
    );
    match hits.unreached()[..] {
        [] => Ok(()),
        ref left => Err(format!("not reached: {}", left.join("; "))),
    }
}
