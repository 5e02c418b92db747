//! Scripts of calls, random and aimed, the same for the same seed. The
//! generator runs the calls as it writes them, so that each call can be
//! aimed at what the places hold by then.

mod channel;
mod damage;
mod edges;
mod garble;
mod head;
mod headends;
mod maps;
mod messages;
mod outcomes;
mod random;
mod stations;
mod tables;
mod times;

use crate::print;
use crate::script::Session;
use random::{Deck, Random};
use std::collections::BTreeMap;

/// Long lines wait while the script is above this many bytes a call.
const BYTES_A_CALL: usize = 150;
const SHORT_LINE: usize = 160;

pub struct Generator {
    random: Random,
    session: Session,
    script: String,
    calls: usize,
    wanted: usize,
    decks: BTreeMap<&'static str, Deck>,
    /// The last short line of each word, to be garbled.
    samples: BTreeMap<String, String>,
}

/// A script of `count` calls. The numbers to check come first, then each
/// outcome once, as far as `count` lets them in.
pub fn script(seed: u64, count: usize) -> String {
    let mut generator = Generator {
        random: Random::new(seed),
        session: Session::default(),
        script: String::new(),
        calls: 0,
        wanted: count,
        decks: BTreeMap::new(),
        samples: BTreeMap::new(),
    };
    generator.numbers_to_check();
    generator.every_outcome();
    while !generator.full() {
        generator.activity();
    }
    generator.script
}

impl Generator {
    fn full(&self) -> bool {
        self.calls >= self.wanted
    }

    fn roomy(&self) -> bool {
        self.script.len() < BYTES_A_CALL * self.calls
    }

    /// Writes a call down, unless the script is full, and answers it.
    fn call(&mut self, line: String) -> String {
        if self.full() {
            return String::new();
        }
        self.calls += 1;
        self.script.push_str(&line);
        self.script.push('\n');
        let answer = self.session.answer(line.as_bytes());
        if line.len() <= SHORT_LINE && answer != "bad" {
            let word = line.split(' ').next().unwrap_or_default();
            self.samples.insert(word.to_string(), line);
        }
        answer
    }

    /// A call of a word and numbers.
    fn plain(&mut self, word: &str, numbers: &[u32]) -> String {
        let space = if numbers.is_empty() { "" } else { " " };
        self.call(format!("{word}{space}{}", print::numbers(numbers)))
    }

    /// A call of a word, numbers and bytes.
    fn with_bytes(&mut self, word: &str, numbers: &[u32], bytes: &[u8]) -> String {
        let line = match numbers {
            [] => format!("{word} {}", print::hex(bytes)),
            _ => format!("{word} {} {}", print::numbers(numbers), print::hex(bytes)),
        };
        self.call(line)
    }

    fn deck(&mut self, name: &'static str, choices: usize) -> usize {
        let deck = self.decks.entry(name).or_default();
        deck.draw(&mut self.random, choices)
    }

    fn activity(&mut self) {
        match self.deck("activity", 25) {
            0..=1 => self.times(6, Generator::valid_message),
            2..=5 => self.times(6, Generator::damaged_message),
            6..=7 => self.times(6, Generator::written_message),
            8 => self.times(3, Generator::time_calls),
            9 => self.times(2, Generator::set_up_station),
            10 => self.times(3, Generator::odd_record),
            11..=14 => self.station_story(),
            15 => self.loss_story(),
            16 => self.times(2, Generator::table_story),
            17 => self.times(3, Generator::table_call),
            18 => self.times(2, Generator::set_up_headend),
            19 => self.headend_story(),
            20 => self.times(2, Generator::full_headend),
            21 => self.channel_story(),
            22 => self.times(5, Generator::edge_sid),
            23 => self.times(5, Generator::edge_record),
            _ => self.times(6, Generator::garbled_line),
        }
        if self.random.chance(3) && !self.full() {
            self.script.push('\n');
        }
    }

    fn times(&mut self, times: usize, activity: fn(&mut Generator)) {
        for _ in 0..times {
            activity(self);
        }
    }
}
