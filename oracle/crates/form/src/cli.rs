//! The command line that every compared program shares.

use std::io::{Read, Write};

use crate::{Engine, play, trace};

/// Plays standard input in the form named and prints the answers; says how where the form is not known.
pub fn run(engine: &mut dyn Engine, form: Option<&str>) -> Result<(), String> {
    let mut input = Vec::new();
    let mut out = String::new();
    match form {
        Some("script") => {
            read(&mut input)?;
            let text = String::from_utf8(input).map_err(|e| e.to_string())?;
            play::script(engine, &text, &mut out);
        }
        Some("trace") => {
            read(&mut input)?;
            trace::run(engine, &input, &mut out);
        }
        _ => return Err("name the form of standard input: script or trace".to_string()),
    }
    std::io::stdout()
        .write_all(out.as_bytes())
        .map_err(|e| e.to_string())
}

fn read(input: &mut Vec<u8>) -> Result<(), String> {
    std::io::stdin()
        .read_to_end(input)
        .map(|_| ())
        .map_err(|e| e.to_string())
}
