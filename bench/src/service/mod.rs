//! Each proved service alone.
//!   bench service check         that every case says what it should, three times running; exit code 1 where one does not
//!   bench service stack         bytes of stack per call
//!   bench service cases         the names of the cases, in order
//!   bench service count CASE N  runs a case N times, to be counted by valgrind

mod asked;
mod cases;
mod ours;

use std::process::ExitCode;

use crate::stack;
use crate::timing::Bench;

fn checked() -> ExitCode {
    let rows = cases::all();
    for (case, says) in &rows {
        let mut asked = (case.made)();
        for _ in 0..3 {
            (case.run)(&mut asked, &mut []);
            if asked.said != *says {
                println!("DIFFERENCE in {}: {:?} for {says:?}", case.name, asked.said);
                return ExitCode::FAILURE;
            }
        }
    }
    println!(
        "each of {} cases of services says what it should",
        rows.len() - 1
    );
    ExitCode::SUCCESS
}

/// What the words after `service` ask for; exit code 2 where they ask for nothing that there is.
pub fn run(words: &[&str]) -> ExitCode {
    match words {
        ["check"] => return checked(),
        ["stack"] => {
            println!("{:<42}{:>18}", "bytes of stack touched", "Rattle");
            for (case, _) in cases::all() {
                println!("{:<42}{:>18}", case.name, stack::of(&case));
            }
        }
        ["cases"] => {
            for (case, _) in cases::all() {
                println!("{}", case.name);
            }
        }
        ["count", case, n] => {
            let number = |word: &str| word.parse::<u32>().expect("a number");
            let (case, _) = cases::all().swap_remove(number(case) as usize);
            Bench::new(case).repeat(number(n));
        }
        _ => {
            println!("bench service check | stack | cases | count CASE N");
            return ExitCode::from(2);
        }
    }
    ExitCode::SUCCESS
}
