//! The programs around the comparison: generator, branch report, comparer, sample and mutants.

mod batch;
mod compare;
mod configs;
mod edit;
mod frames;
mod report;
mod rng;
mod sample;
mod scenes;
mod scripts;
mod shrink;
mod states;
mod traces;

const USAGE: &str = "\
oracle script SEED COUNT               prints scripts
oracle trace SEED NUMBER               prints one trace
oracle branches SEED SCRIPTS TRACES    how often each branch is reached; fails if one is not
oracle compare script SEED COUNT A B   runs the commands A and B on scripts; fails at a difference, shrunk
oracle compare trace SEED COUNT A B    the same on traces
oracle compare file FORM PATH A B      the same on one file
oracle expect-difference SEED COUNT RUNS A B  the other way round: fails where scripts show none; RUNS to shrink it
oracle soak SECONDS SEED A B           compares scripts and traces until the time is over
oracle sample SEED SCRIPTS TRACES DIR COMMAND  chooses a small set that reaches every branch
oracle replay DIR COMMAND              whether COMMAND gives the answers stored in DIR
oracle edit FILE DIR                   makes the one-line change that FILE describes in a copy of the sources";

fn main() {
    let words: Vec<String> = std::env::args().skip(1).collect();
    let words: Vec<&str> = words.iter().map(String::as_str).collect();
    if let Err(message) = run(&words) {
        eprintln!("{message}");
        std::process::exit(1);
    }
}

fn number<T: std::str::FromStr>(word: &str) -> Result<T, String> {
    word.parse().map_err(|_| format!("{word} is no number"))
}

fn run(words: &[&str]) -> Result<(), String> {
    match words {
        ["script", seed, count] => batch::print_scripts(number(seed)?, number(count)?),
        ["trace", seed, nth] => batch::print_trace(number(seed)?, number(nth)?),
        ["branches", seed, scripts, traces] => {
            report::branches(number(seed)?, number(scripts)?, number(traces)?)
        }
        ["compare", "script", seed, count, a, b] => {
            compare::scripts(number(seed)?, number(count)?, a, b).map(|line| println!("{line}"))
        }
        ["compare", "trace", seed, count, a, b] => {
            compare::traces(number(seed)?, number(count)?, a, b).map(|line| println!("{line}"))
        }
        ["compare", "file", form, path, a, b] => compare::file(form, path, a, b),
        ["expect-difference", seed, count, runs, a, b] => {
            compare::expect_difference(number(seed)?, number(count)?, number(runs)?, a, b)
        }
        ["soak", seconds, seed, a, b] => compare::soak(number(seconds)?, number(seed)?, a, b),
        ["sample", seed, scripts, traces, dir, command] => sample::choose(
            number(seed)?,
            number(scripts)?,
            number(traces)?,
            dir,
            command,
        ),
        ["replay", dir, command] => sample::replay(dir, command),
        ["edit", file, dir] => edit::apply(file, dir),
        _ => Err(USAGE.to_string()),
    }
}
