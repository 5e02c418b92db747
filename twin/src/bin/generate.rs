//! `generate SEED COUNT`: prints a script of COUNT calls.

use std::io::{self, Write};
use std::process::ExitCode;

fn main() -> ExitCode {
    let arguments: Vec<String> = std::env::args().skip(1).collect();
    let numbers: Vec<u64> = arguments.iter().flat_map(|a| a.parse()).collect();
    let (seed, count) = match (&numbers[..], arguments.len()) {
        (&[seed, count], 2) => (seed, count),
        _ => {
            eprintln!("usage: generate SEED COUNT");
            return ExitCode::from(2);
        }
    };
    let script = twin::generate::script(seed, count as usize);
    match io::stdout().write_all(script.as_bytes()) {
        Ok(()) => ExitCode::SUCCESS,
        Err(_) => ExitCode::from(2),
    }
}
