//! Reads a script on standard input and prints the answer lines.

use std::io::{self, Read, Write};
use std::process::ExitCode;

const LONGEST_INPUT: usize = 1_048_576;

fn main() -> ExitCode {
    let mut input = Vec::new();
    if io::stdin().read_to_end(&mut input).is_err() {
        eprintln!("twin: standard input can't be read");
        return ExitCode::from(2);
    }
    let answers = if input.len() > LONGEST_INPUT {
        String::from("bad\n")
    } else {
        twin::script::answers(&input)
    };
    match io::stdout().write_all(answers.as_bytes()) {
        Ok(()) => ExitCode::SUCCESS,
        Err(_) => ExitCode::from(2),
    }
}
