//! Running a command on an input, and printing what is generated.

use std::io::Write;
use std::process::{Command, Stdio};

use crate::{scripts, traces};

pub fn print_scripts(seed: u64, count: u64) -> Result<(), String> {
    for number in 0..count {
        print!("{}", scripts::text(&scripts::script(seed, number)));
    }
    Ok(())
}

pub fn print_trace(seed: u64, number: u64) -> Result<(), String> {
    std::io::stdout()
        .write_all(&traces::trace(seed, number))
        .map_err(|e| e.to_string())
}

/// What a command prints on an input. The name of the form is its last argument, unless the command begins
/// with `=`. A command that fails has printed what it has printed; its failure is a last line, so that two
/// commands that end differently differ.
pub fn run(command: &str, form: &str, input: &[u8]) -> Result<String, String> {
    let mut words: Vec<&str> = command.trim_start_matches('=').split(' ').collect();
    if !command.starts_with('=') {
        words.push(form);
    }
    let mut child = Command::new(words[0])
        .args(&words[1..])
        .stdin(Stdio::piped())
        .stdout(Stdio::piped())
        .stderr(Stdio::null())
        .spawn()
        .map_err(|e| format!("{command}: {e}"))?;
    let mut stdin = child.stdin.take().expect("piped");
    let given = input.to_vec();
    let feeder = std::thread::spawn(move || {
        // A command that ends before it has read all is no error here; its output tells.
        let _ = stdin.write_all(&given);
    });
    let output = child
        .wait_with_output()
        .map_err(|e| format!("{command}: {e}"))?;
    feeder
        .join()
        .map_err(|_| "feeding a command failed".to_string())?;
    let mut text = String::from_utf8_lossy(&output.stdout).into_owned();
    if !output.status.success() {
        text.push_str("(ended with a failure)\n");
    }
    Ok(text)
}
