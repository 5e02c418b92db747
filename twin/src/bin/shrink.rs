//! `shrink SCRIPT REPLAY`: makes a script on which another program answers
//! otherwise than the twin as short as it can, and prints it with both
//! answers. REPLAY is a command that reads the script on standard input.

use std::fs::{self, File};
use std::process::{Command, ExitCode, Stdio};
use twin::script::answers;

const LONGEST_TAIL: usize = 40;

struct Search {
    replay: String,
    scratch: String,
}

impl Search {
    /// A program that hangs is ended, and then differs.
    fn other(&self, lines: &[String]) -> Vec<u8> {
        let run = || {
            fs::write(&self.scratch, text(lines))?;
            let mut command = Command::new("timeout");
            command.args(["60", "bash", "-c", &self.replay]);
            command.stdin(File::open(&self.scratch)?);
            command.stderr(Stdio::null());
            command.output()
        };
        match run() {
            Ok(output) => output.stdout,
            Err(error) => format!("not run: {error}\n").into_bytes(),
        }
    }

    fn differs(&self, lines: &[String]) -> bool {
        answers(text(lines).as_bytes()).as_bytes() != self.other(lines)
    }

    /// An answer hangs on the lines up to it alone, so every longer prefix
    /// of a prefix that differs differs too.
    fn cut(&self, lines: &[String]) -> Vec<String> {
        let (mut same, mut differing) = (0, lines.len());
        while differing - same > 1 {
            let middle = (same + differing) / 2;
            if self.differs(&lines[..middle]) {
                differing = middle;
            } else {
                same = middle;
            }
        }
        lines[..differing].to_vec()
    }

    /// A short tail of the script, and all that came before it put as the
    /// content of places.
    fn by_content(&self, lines: Vec<String>) -> Vec<String> {
        for tail in 1..=lines.len().min(LONGEST_TAIL) {
            let (before, last) = lines.split_at(lines.len() - tail);
            let mut short = content(before);
            short.extend_from_slice(last);
            if self.differs(&short) {
                return short;
            }
        }
        lines
    }

    /// Drops runs of lines, halves first and single lines last, until no
    /// line can go.
    fn drop_lines(&self, mut lines: Vec<String>) -> Vec<String> {
        let mut run = (lines.len() + 1) / 2;
        while run > 0 {
            let dropped = self.drop_runs(&mut lines, run);
            if run > 1 || !dropped {
                run /= 2;
            }
        }
        lines
    }

    fn drop_runs(&self, lines: &mut Vec<String>, run: usize) -> bool {
        let mut dropped = false;
        let mut at = lines.len();
        while at > 0 {
            let from = at.saturating_sub(run);
            let mut fewer = lines.clone();
            fewer.drain(from..at);
            if self.differs(&fewer) {
                *lines = fewer;
                dropped = true;
            }
            at = from;
        }
        dropped
    }
}

fn text(lines: &[String]) -> String {
    lines.iter().map(|line| format!("{line}\n")).collect()
}

/// Lines that give every place the content it has after `before`.
fn content(before: &[String]) -> Vec<String> {
    let shows = (0..40).map(|i| format!("show {i}"));
    let helds = (0..4).map(|i| format!("held {i} 64"));
    let asked: Vec<String> = shows.chain(helds).collect();
    let mut all = before.to_vec();
    all.extend(asked.iter().cloned());
    let printed = answers(text(&all).as_bytes());
    let printed: Vec<&str> = printed.lines().collect();
    let places = &printed[printed.len() - asked.len()..];
    let restore = |(line, answer): (&String, &&str)| {
        let place = line.split(' ').nth(1)?;
        let (kind, fields) = answer.split_once(' ')?;
        let word = if kind == "station" {
            "record"
        } else {
            "holding"
        };
        Some(format!("{word} {place} {fields}"))
    };
    asked.iter().zip(places).filter_map(restore).collect()
}

fn main() -> ExitCode {
    let arguments: Vec<String> = std::env::args().skip(1).collect();
    let (script, replay) = match &arguments[..] {
        [script, replay] => (script, replay),
        _ => {
            eprintln!("usage: shrink SCRIPT REPLAY");
            return ExitCode::from(2);
        }
    };
    let whole = match fs::read_to_string(script) {
        Ok(whole) => whole,
        Err(_) => {
            eprintln!("shrink: {script} can't be read");
            return ExitCode::from(2);
        }
    };
    let search = Search {
        replay: replay.clone(),
        scratch: format!("{script}.try"),
    };
    let whole = whole.strip_suffix('\n').unwrap_or(&whole);
    let lines: Vec<String> = whole.split('\n').map(str::to_string).collect();
    if !search.differs(&lines) {
        println!("the difference doesn't come again");
        return ExitCode::from(1);
    }
    let short = search.drop_lines(search.by_content(search.cut(&lines)));
    println!("script ({} calls):\n{}", short.len(), text(&short));
    print!("twin:\n{}\n", answers(text(&short).as_bytes()));
    let other = search.other(&short);
    print!("other:\n{}", String::from_utf8_lossy(&other));
    ExitCode::from(1)
}
