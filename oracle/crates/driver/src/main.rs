//! Plays scripts and traces on the published server.
//!
//! `driver script` and `driver trace` read standard input; with `--straight` before the form every frame
//! goes to the server as it is, also those that the product's rules answer otherwise. `driver tables` prints
//! what the makers and constants of the published files fix.

mod code;
mod engine;
mod hooks;
mod live;
mod tables;

fn main() {
    let mut words: Vec<String> = std::env::args().skip(1).collect();
    let straight = words.first().is_some_and(|w| w == "--straight");
    if straight {
        words.remove(0);
    }
    if words.first().is_some_and(|w| w == "tables") {
        return tables::print();
    }
    let mut engine = engine::Beside::new(straight);
    if let Err(message) = form::cli::run(&mut engine, words.first().map(String::as_str)) {
        eprintln!("{message}");
        std::process::exit(2);
    }
}
