//! What a generated script must bring about.

use std::collections::BTreeSet;
use twin::generate::script;
use twin::script::answers;

/// The word of each call with what came of it.
fn outcomes(script: &str) -> BTreeSet<String> {
    let answers = answers(script.as_bytes());
    let calls = script.split('\n').filter(|line| !line.is_empty());
    let mut seen = BTreeSet::new();
    for (call, answer) in calls.zip(answers.split('\n')) {
        let word = call.split(' ').next().unwrap_or_default();
        let words: Vec<&str> = answer.split(' ').collect();
        let outcome = match words[0] {
            "refused" => format!("refused {}", words[1]),
            "heard" => format!("heard {} {}", words[1] != "0", words[2] == "none"),
            "span" => format!(
                "span {} {}",
                words[1] == "none",
                words[words.len() - 1] == "0"
            ),
            "table" => format!("table {}", words[1]),
            "headend" if word == "held" => places(&words),
            token if token.starts_with('x') => format!("bytes {}", token != "x"),
            other => other.to_string(),
        };
        seen.insert(format!("{word}: {outcome}"));
        if outcome == "table 0" {
            let places = words[2..].iter();
            seen.extend(places.map(|place| format!("table: place {place}")));
        }
    }
    seen
}

/// Whether places behind those held are shown, and whether one of them has
/// a content.
fn places(words: &[&str]) -> String {
    let held: usize = words[10].parse().unwrap_or(0);
    match words.get(11 + 3 * held..) {
        None | Some([]) => "headend".to_string(),
        Some(spare) => format!("spare {}", spare.iter().any(|&word| word != "0")),
    }
}

const REFUSALS: [(&str, &str); 10] = [
    ("read", "1 2 3 4 5 6 7 8 9 10"),
    ("grant", "1 2 3 4 5 6 7 8 9 10"),
    ("write", "2 4 5 6 7 8 9 10 11"),
    ("begins", "17"),
    ("station", "6 17"),
    ("offer", "6 16 17"),
    ("hear", "1 2 3 4 5 6 7 8 9 10 12 13 14 15 17"),
    ("headend", "4"),
    ("request", "4 6 17 18 19 20 21"),
    ("issue", "4 6 11 17 22 23"),
];

const OTHERS: [(&str, &str); 18] = [
    ("read", "map"),
    ("after", "bytes true,bytes false"),
    ("write", "wrote"),
    ("grant", "grant,none"),
    ("begins", "begins"),
    ("earlier", "yes,no"),
    (
        "span",
        "span true true,span true false,span false true,span false false",
    ),
    ("station", "station"),
    ("record", "station"),
    ("show", "station"),
    ("offer", "offered"),
    ("hear", "heard false true,heard false false,heard true true"),
    ("table", "table 0,table 17"),
    ("headend", "headend"),
    ("holding", "headend"),
    ("held", "headend,spare false,spare true"),
    ("request", "taken"),
    ("issue", "issued"),
];

const TABLE_PLACES: &str = "0 1 2 3 4 5 6 7 8 9 10 12 13 14 15 17 9999";

fn expected() -> Vec<String> {
    let mut all = Vec::new();
    for (word, numbers) in REFUSALS {
        all.extend(numbers.split(' ').map(|n| format!("{word}: refused {n}")));
    }
    for (word, list) in OTHERS {
        all.extend(list.split(',').map(|outcome| format!("{word}: {outcome}")));
        all.push(format!("{word}: bad"));
    }
    let places = TABLE_PLACES.split(' ');
    all.extend(places.map(|place| format!("table: place {place}")));
    all
}

#[test]
fn every_outcome_in_every_script() {
    for (seed, count) in [(1, 300), (2, 1_000), (3, 4_000), (4, 5_000), (5, 5_000)] {
        let seen = outcomes(&script(seed, count));
        for outcome in expected() {
            assert!(seen.contains(&outcome), "seed {seed} lacks {outcome}");
        }
    }
}

#[test]
fn as_many_calls_as_asked_for() {
    for (seed, count) in [(1, 0), (1, 1), (2, 100), (3, 777), (4, 4_000)] {
        let script = script(seed, count);
        let calls = script.split('\n').filter(|line| !line.is_empty());
        assert_eq!(calls.count(), count);
    }
}

#[test]
fn scripts_are_repeatable_and_not_too_long() {
    for seed in 0..12 {
        let once = script(seed, 5_000);
        assert!(once.len() < 1_000_000, "seed {seed}: {} bytes", once.len());
        assert_eq!(once, script(seed, 5_000));
        assert_ne!(once, script(seed + 1, 5_000));
    }
}
