//! Plays scripts and traces on the rules: `rules script` and `rules trace` read standard input.

fn main() {
    let form = std::env::args().nth(1);
    if let Err(message) = form::cli::run(&mut rules::Rules::default(), form.as_deref()) {
        eprintln!("{message}");
        std::process::exit(2);
    }
}
