//! The proved server's calls by the lent door, beside those of the published one.
//!   bench server check              each call on both, three times running; exit code 1 where one leaves something else than it must
//!   bench server stack              bytes of stack per call
//!   bench server cases              the names of the calls, in order
//!   bench server count SIDE CASE N  makes a call N times, to be counted by valgrind: side 0 is ours, 1 the published,
//!                                 which makes none where it has no such call

mod call;
mod cases;
mod ours;
mod published;

use std::hint::black_box;
use std::process::ExitCode;

use call::{Call, LENT, Side};
use ours::Ours;
use published::Published;

use crate::stack;

/// Whether a call leaves what it must, each of three times, on a server that has it.
fn holds<S: Side>(call: &Call) -> bool {
    let Some(run) = S::run(call.kind) else {
        return true;
    };
    let mut side = Box::new(S::new(call.clone()));
    let mut out = vec![0; LENT];
    (0..3).all(|_| {
        side.ready();
        run(&mut side, &mut out);
        let after = side.after(&out);
        if after != call.after {
            let (name, side) = (&call.name, S::NAME);
            println!(
                "DIFFERENCE in {name}, {side}: {after:?} for {:?}",
                call.after
            );
        }
        after == call.after
    })
}

fn checked() -> ExitCode {
    let calls = cases::all();
    if !calls
        .iter()
        .all(|c| holds::<Ours>(c) && holds::<Published>(c))
    {
        return ExitCode::FAILURE;
    }
    let both = calls.iter().filter(|c| Published::run(c.kind).is_some());
    println!(
        "each of {} calls leaves what it must, {} of them on both servers",
        calls.len(),
        both.count()
    );
    ExitCode::SUCCESS
}

/// Bytes of stack, or a dash where the server has no such call.
fn touched<S: Side>(call: &Call) -> String {
    S::run(call.kind).map_or("-".into(), |run| {
        stack::touched(&|| S::new(call.clone()), LENT, run).to_string()
    })
}

fn repeat<S: Side>(call: &Call, times: u32) {
    let Some(run) = S::run(call.kind) else {
        return;
    };
    let mut side = Box::new(S::new(call.clone()));
    let mut out = vec![0; LENT];
    for _ in 0..times {
        side.ready();
        black_box(run)(black_box(&mut side), black_box(&mut out));
    }
}

/// What the words after `server` ask for; exit code 2 where they ask for nothing that there is.
pub fn run(words: &[&str]) -> ExitCode {
    let number = |word: &str| word.parse::<u32>().expect("a number");
    match words {
        ["check"] => return checked(),
        ["stack"] => {
            println!(
                "{:<34}{:>18}{:>18}",
                "bytes of stack touched",
                Ours::NAME,
                Published::NAME
            );
            for call in cases::all() {
                let (a, b) = (touched::<Ours>(&call), touched::<Published>(&call));
                println!("{:<34}{a:>18}{b:>18}", call.name);
            }
        }
        ["cases"] => {
            for call in cases::all() {
                println!("{}", call.name);
            }
        }
        ["count", side, case, n] => {
            let call = &cases::all()[number(case) as usize];
            match *side {
                "0" => repeat::<Ours>(call, number(n)),
                _ => repeat::<Published>(call, number(n)),
            }
        }
        _ => {
            println!("bench server check | stack | cases | count SIDE CASE N");
            return ExitCode::from(2);
        }
    }
    ExitCode::SUCCESS
}
