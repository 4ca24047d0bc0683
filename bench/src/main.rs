//! Push and drain of the proved queue beside the same in Rust: first compared, then measured.
//!   bench compare            on generated input; exit code 1 and the first difference where there is one
//!   bench time               ns per operation, three measurements
//!   bench stack              bytes of stack per call
//!   bench cases              the names of the cases, in order
//!   bench count SIDE CASE N  runs a case N times, to be counted by valgrind
//!   bench state ..           the same of the state: `state/mod.rs`
//!   bench service ..         each service alone: `service/mod.rs`
//!   bench server ..          the server's calls: `server/mod.rs`

mod cases;
mod compare;
mod inputs;
mod ours;
mod plain;
mod published;
mod queue;
mod server;
mod service;
mod stack;
mod state;
mod timing;

use std::process::ExitCode;

use ours::Ours;
use plain::Plain;
use published::Published;
use queue::Queue;
use timing::Bench;

const COMPARED: usize = 20_000;
const ROUNDS: usize = 1001;

fn row(name: &str, cells: [String; 3]) {
    println!("{name:<34}{:>18}{:>18}{:>18}", cells[0], cells[1], cells[2]);
}

fn heading(what: &str) {
    row(
        what,
        [Ours::NAME, Published::NAME, Plain::NAME].map(String::from),
    );
}

/// Lowest and highest of three medians. In every round each queue has its turn, so that a machine whose speed changes is the same for all.
fn times() {
    heading("ns per operation");
    let (ours, published, plain) = (cases::timed(), cases::timed(), cases::timed());
    for (i, ((a, b), c)) in ours.into_iter().zip(published).zip(plain).enumerate() {
        let name = a.name;
        let mut a = Bench::<Ours>::new(a);
        let mut b = Bench::<Published>::new(b);
        let mut c = Bench::<Plain>::new(c);
        let mut sides = [vec![], vec![], vec![]];
        for _ in 0..3 {
            for _ in 0..ROUNDS {
                a.round();
                if i != cases::REFUSED {
                    b.round();
                }
                c.round();
            }
            sides[0].push(a.median());
            if i != cases::REFUSED {
                sides[1].push(b.median());
            }
            sides[2].push(c.median());
        }
        row(name, sides.map(|s| spread(&s)));
    }
}

fn spread(medians: &[f64]) -> String {
    if medians.is_empty() {
        return String::from("-");
    }
    let lowest = medians.iter().copied().fold(f64::INFINITY, f64::min);
    let highest = medians.iter().copied().fold(0.0, f64::max);
    format!("{lowest:.1} to {highest:.1}")
}

fn stacks() {
    heading("bytes of stack touched");
    let (ours, published, plain) = (cases::calls(), cases::calls(), cases::calls());
    for i in 0..ours.len() {
        let cells = [
            stack::of::<Ours>(&ours[i]),
            stack::of::<Published>(&published[i]),
            stack::of::<Plain>(&plain[i]),
        ];
        row(ours[i].name, cells.map(|n| n.to_string()));
    }
}

fn run<Q: Queue>(case: usize, times: u32) {
    Bench::<Q>::new(cases::timed().swap_remove(case)).repeat(times);
}

fn main() -> ExitCode {
    let words: Vec<String> = std::env::args().skip(1).collect();
    let words: Vec<&str> = words.iter().map(String::as_str).collect();
    let number = |word: &str| word.parse::<u32>().expect("a number");
    match words[..] {
        ["compare"] => match compare::all(COMPARED) {
            Ok(run) => {
                println!("no difference in {COMPARED} histories and {COMPARED} handed-in queues");
                for result in [0, 3, 5, 10] {
                    println!("result {result:>2} was given {} times", run.seen[result]);
                }
            }
            Err(difference) => {
                println!("DIFFERENCE in {difference}");
                return ExitCode::FAILURE;
            }
        },
        ["state", ref rest @ ..] => return state::run(rest),
        ["service", ref rest @ ..] => return service::run(rest),
        ["server", ref rest @ ..] => return server::run(rest),
        ["time"] => times(),
        ["stack"] => stacks(),
        ["cases"] => {
            for case in cases::timed::<Ours>() {
                println!("{}", case.name);
            }
        }
        ["count", "0", case, n] => run::<Ours>(number(case) as usize, number(n)),
        ["count", "1", case, n] => run::<Published>(number(case) as usize, number(n)),
        ["count", "2", case, n] => run::<Plain>(number(case) as usize, number(n)),
        _ => {
            println!(
                "bench compare | time | stack | cases | count SIDE CASE N | state .. | service .. | server .."
            );
            return ExitCode::from(2);
        }
    }
    ExitCode::SUCCESS
}
