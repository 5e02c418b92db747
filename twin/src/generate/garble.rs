//! Lines that are bad, or nearly so.

use super::Generator;

const KINDS: usize = 26;

impl Generator {
    /// A line at an edge, then a sample of the next word, garbled once.
    pub fn garbled_line(&mut self) {
        self.edge_line();
        let words = self.samples.len();
        if words == 0 {
            return;
        }
        let which = self.deck("garbled word", words).min(words - 1);
        let line = self.samples.values().nth(which).cloned();
        let kind = self.deck("garble", KINDS);
        let garbled = self.garble(&line.unwrap_or_default(), kind);
        self.call(garbled);
    }

    fn garble(&mut self, line: &str, kind: usize) -> String {
        match kind {
            0 => line.replacen(' ', "  ", 1),
            1 => format!(" {line}"),
            2 => format!("{line} "),
            3 => line.replacen(' ', "\t", 1),
            4 => format!("{line} 7"),
            5 => format!("{line} x00"),
            6 => format!("{line}0"),
            7 => format!("{line}g"),
            8 => line.to_uppercase(),
            9 => line.split(' ').next().unwrap_or_default().to_string(),
            10 => format!("{line} x"),
            11 => format!("{line}\r"),
            12 => self.without_last(line),
            13 => format!("re{line}"),
            14 => "x".to_string(),
            15 => line.replace(" x", " "),
            16 => upper_hex(line),
            17..=22 => self.odd_number(line),
            _ => self.overlong(),
        }
    }

    fn without_last(&mut self, line: &str) -> String {
        match line.rsplit_once(' ') {
            Some((front, _)) => front.to_string(),
            None => format!("{line} 1 2 3 4"),
        }
    }

    /// One number out of range or misspelt; the first is often a place.
    fn odd_number(&mut self, line: &str) -> String {
        let mut tokens: Vec<String> = line.split(' ').map(str::to_string).collect();
        let numbers = tokens.iter().filter(|t| t.starts_with(char::is_numeric));
        let count = numbers.count();
        if count == 0 {
            return format!("{line} 4294967296");
        }
        let any = 1 + self.random.below(count);
        let at = self.random.pick(&[1, any, any]);
        let odd = self.random.pick(&[
            "4294967296",
            "4294967295",
            "9999999999",
            "00000000001",
            "0000000001",
            "-1",
            "+1",
            "1.0",
            "0x1",
            "",
            "39",
            "40",
            "41",
            "3",
            "4",
            "255",
            "256",
            "65535",
            "65536",
            "1000",
            "1001",
            "\u{e9}",
        ]);
        tokens[at] = odd.to_string();
        tokens.join(" ")
    }

    /// More numbers or bytes than a line may have.
    fn overlong(&mut self) -> String {
        if !self.roomy() {
            return "station".to_string();
        }
        match self.deck("overlong", 6) {
            5 => (0..300).fold("span".to_string(), |line, i| {
                format!("{line} {} 2", 1_000 - i)
            }),
            0 => format!("span{}", " 1 2".repeat(301)),
            1 => format!("span{}", " 1".repeat(741)),
            2 => format!("read x{}", "0".repeat(2_002)),
            3 => format!("read x{}", "0".repeat(2_000)),
            _ => format!("write 9 1 1 1 1 0 0 0 0{}", " 5 1 0".repeat(242)),
        }
    }
}

/// The word stays as it is, the digits a to f don't.
fn upper_hex(line: &str) -> String {
    match line.rsplit_once(' ') {
        Some((front, token)) => format!("{front} {}", token.to_uppercase().replace('X', "x")),
        None => line.to_string(),
    }
}
