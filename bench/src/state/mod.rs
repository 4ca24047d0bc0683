//! Validity and effects of the proved state.
//!   bench state compare       on generated states; exit code 1 and the first difference where there is one
//!   bench state stack         bytes of stack per call
//!   bench state cases         the names of the cases, in order
//!   bench state count CASE N  runs a case N times, to be counted by valgrind

mod cases;
mod compare;
pub mod config;
mod edges;
pub mod held;
mod ours;
mod plain;

use std::process::ExitCode;

use crate::stack;
use crate::timing::Bench;

const COMPARED: usize = 20_000;

fn compared() -> ExitCode {
    match compare::all(COMPARED) {
        Ok(run) => {
            println!("no difference in {COMPARED} states and {COMPARED} effects");
            let least = |n: &[usize]| n.iter().copied().min().unwrap_or(0);
            println!(
                "each of {} numbers was at its edge in {} or more valid states, and alone past it in {} or more",
                run.at.len(),
                least(&run.at),
                least(&run.past)
            );
            println!(
                "result  0 was given {} times, result 3 {} times",
                run.results[0], run.results[3]
            );
            ExitCode::SUCCESS
        }
        Err(difference) => {
            println!("DIFFERENCE in {difference}");
            ExitCode::FAILURE
        }
    }
}

/// What the words after `state` ask for; exit code 2 where they ask for nothing that there is.
pub fn run(words: &[&str]) -> ExitCode {
    match words {
        ["compare"] => return compared(),
        ["stack"] => {
            println!("{:<34}{:>18}", "bytes of stack touched", "Rattle");
            for case in cases::all() {
                println!("{:<34}{:>18}", case.name, stack::of(&case));
            }
        }
        ["cases"] => {
            for case in cases::all() {
                println!("{}", case.name);
            }
        }
        ["count", case, n] => {
            let number = |word: &str| word.parse::<u32>().expect("a number");
            Bench::new(cases::all().swap_remove(number(case) as usize)).repeat(number(n));
        }
        _ => {
            println!("bench state compare | stack | cases | count CASE N");
            return ExitCode::from(2);
        }
    }
    ExitCode::SUCCESS
}
