//! Each outcome of each call, once, so that no script lacks one.

use super::head::map;
use super::Generator;
use crate::message::*;

const BACKOFFS: [u8; 4] = [0, 4, 2, 6];
const WORDS: [&str; 18] = [
    "read", "after", "write", "grant", "begins", "earlier", "span 1", "station", "record", "show",
    "offer", "hear", "table", "headend", "holding", "held", "request", "issue",
];

/// Channel 1, count 2, 30 mini-slots; a grant to 5 and a pending for 9.
fn good(start: u32) -> Map {
    let mut good = map(start, 980, BACKOFFS, &[(BROADCAST, 1, 6), (5, 6, 24)]);
    good.elements.push(Element::new(9, SHORT_GRANT, 30));
    good
}

/// The good MAP with one fault, for the refusals that fields can earn.
fn faulty(number: u32) -> Map {
    let mut map = good(1_000);
    match number {
        2 => map.elements.clear(),
        4 => map.backoffs[2] = 7,
        5 => map.elements[1].usage = 9,
        6 => map.elements[1].sid = 0x2000,
        7 => map.elements[1].offset = 0,
        8 => map.elements[2].offset = 4_097,
        9 => map.elements[2].offset = 262,
        10 => map.elements.truncate(2),
        _ => {}
    }
    map
}

fn faulty_bytes(number: u32) -> Vec<u8> {
    let mut bytes = lay_out(&faulty(number));
    match number {
        1 => bytes.truncate(15),
        3 => bytes.push(0),
        _ => {}
    }
    bytes
}

impl Generator {
    pub fn every_outcome(&mut self) {
        self.message_outcomes();
        self.time_outcomes();
        self.station_outcomes();
        self.hear_outcomes();
        self.table_outcomes();
        self.request_outcomes();
        self.issue_outcomes();
        self.spare_outcomes();
        for word in WORDS {
            self.call(word.to_string());
        }
    }

    fn message_outcomes(&mut self) {
        let bytes = lay_out(&good(1_000));
        self.with_bytes("read", &[], &bytes);
        self.with_bytes("after", &[], &bytes);
        self.with_bytes("after", &[], &bytes[1..]);
        self.with_bytes("grant", &[5, 0], &bytes);
        self.with_bytes("grant", &[5, 1], &bytes);
        self.write_call(32, &good(1_000));
        self.write_call(31, &good(1_000));
        for number in 1..=10 {
            let bytes = faulty_bytes(number);
            self.with_bytes("read", &[], &bytes);
            self.with_bytes("grant", &[5, 0], &bytes);
            if number != 1 && number != 3 {
                self.write_call(32, &faulty(number));
            }
        }
    }

    fn time_outcomes(&mut self) {
        self.plain("begins", &[1, 1]);
        self.plain("begins", &[1, 0]);
        self.plain("begins", &[1, 8]);
        self.plain("earlier", &[1, 2]);
        self.plain("earlier", &[2, 2]);
        self.plain("span", &[]);
        self.plain("span", &[5, 4_097]);
        self.plain("span", &[5, 4_096, 5, 4_097]);
    }

    fn station_outcomes(&mut self) {
        self.plain("show", &[5]);
        self.plain("offer", &[5, 1]);
        self.plain("station", &[5, 0x2000, 1, 2, 17]);
        self.plain("station", &[5, 5, 1, 2, 17]);
        self.plain("station", &[5, 5, 1, 2, 16]);
        self.plain("offer", &[5, 256]);
        self.plain("offer", &[5, 255]);
        self.plain("offer", &[5, 256]);
        self.record_call(5, [5, 1, 2, 0, 0, 0, 1, 9, 0, 0, 0, 0]);
        self.plain("offer", &[5, 0]);
    }

    fn hear_bytes(&mut self, present: u32, bytes: &[u8]) {
        self.with_bytes("hear", &[6, present, 0], bytes);
    }

    fn hear_outcomes(&mut self) {
        let bytes = lay_out(&good(1_000));
        for (sid, r) in [(0, 1), (5, 0)] {
            self.record_call(6, [sid, 1, 2, r, 0, 0, 0, 0, 0, 0, 0, 0]);
            self.hear_bytes(999, &bytes);
        }
        for (channel, count) in [(3, 2), (1, 3)] {
            self.plain("station", &[6, 5, channel, count, 1]);
            self.hear_bytes(999, &bytes);
        }
        self.plain("station", &[6, 5, 1, 2, 1]);
        for number in 1..=10 {
            self.hear_bytes(999, &faulty_bytes(number));
        }
        self.hear_bytes(1_000, &bytes);
        self.hear_bytes(999, &bytes);
        self.hear_bytes(999, &bytes);
        let contention = map(1_030, 980, BACKOFFS, &[(BROADCAST, 1, 1)]);
        self.hear_bytes(1_029, &lay_out(&contention));
        self.plain("offer", &[6, 9]);
        let contention = map(1_031, 980, BACKOFFS, &[(BROADCAST, 1, 1)]);
        self.hear_bytes(1_030, &lay_out(&contention));
    }

    /// Five records: bad SID, bad r, other channel, other count, and one
    /// that takes whatever the message earns.
    fn table_outcomes(&mut self) {
        let records = [(0, 1, 2, 1), (5, 1, 2, 0), (5, 3, 2, 1), (5, 1, 3, 1)];
        for (place, (sid, channel, count, r)) in (7..).zip(records) {
            let fields = [sid, channel, count, r, 0, 0, 0, 0, 0, 0, 0, 0];
            self.record_call(place, fields);
        }
        self.plain("station", &[11, 5, 1, 2, 1]);
        for number in 1..=10 {
            let numbers = [11, 1, 999, 2, 0];
            self.with_bytes("table", &numbers, &faulty_bytes(number));
        }
        let bytes = lay_out(&good(1_000));
        for present in [1_000, 999, 999] {
            let numbers = [7, 5, present, 6, 1, 2, 3, 4, 5];
            self.with_bytes("table", &numbers, &bytes);
        }
        self.with_bytes("table", &[7, 0, 999, 1], &bytes);
        self.with_bytes("table", &[7, 2, 999, 2, 0], &bytes);
        self.with_bytes("table", &[7, 2, 999, 1, 0, 0], &bytes);
        for count in [32, 33] {
            let mut numbers = vec![7, count, 999, count];
            numbers.extend(0..count);
            self.with_bytes("table", &numbers, &bytes);
        }
    }

    /// A headend handed in: next start 1,000, Ack Time 950.
    fn hold(&mut self, backoff: u32, held: u32, triples: &[u32]) {
        let mut numbers = vec![0, 1_000, 950, 1, 2, 0, 4, 2, backoff, 10, held];
        numbers.extend(triples);
        self.plain("holding", &numbers);
    }

    fn request_outcomes(&mut self) {
        self.plain("headend", &[0, 1_000, 1, 2, 0, 4, 2, 1, 10]);
        self.plain("headend", &[0, 1_000, 1, 2, 0, 4, 2, 6, 10]);
        self.plain("held", &[0]);
        for (backoff, held, sid, size) in [(1, 1, 9, 9), (6, 1, 0, 0), (6, 1, 9, 0), (6, 65, 9, 9)]
        {
            let rest = [9, 9, 960].repeat(if held > 64 { 63 } else { 0 });
            let triples = [&[sid, size, 960], &rest[..]].concat();
            self.hold(backoff, held, &triples);
            self.plain("request", &[0, 8, 9, 960]);
            self.plain("issue", &[0, 950, 5, 100, 280]);
        }
        let many: Vec<u32> = (0..63).flat_map(|i| [100 + i, 64, 960]).collect();
        self.hold(6, 63, &many);
        for (sid, size, first) in [
            (0, 0, 949),
            (8, 0, 949),
            (8, 9, 949),
            (8, 9, 1_000),
            (100, 9, 999),
            (8, 9, 950),
            (8, 9, 960),
            (9, 9, 960),
        ] {
            self.plain("request", &[0, sid, size, first]);
        }
    }

    /// The headend is full: 64 requests, of 4,041 mini-slots in all.
    fn issue_outcomes(&mut self) {
        for (ack, c, budget, room) in [
            (949, 0, 4_097, 279),
            (1_001, 0, 4_097, 279),
            (960, 0, 4_096, 279),
            (960, 55, 4_097, 279),
            (960, 56, 55, 279),
            (960, 56, 4_096, 279),
            (960, 56, 4_096, 280),
            (1_000, 1, 10, 28),
            (1_000, 1, 9, 24),
        ] {
            self.plain("issue", &[0, ack, c, budget, room]);
        }
    }

    /// Two held of four: a request takes the third place, and an issue
    /// leaves zeros behind what stays held.
    fn spare_outcomes(&mut self) {
        let triples = [5, 9, 960, 6, 10, 961, 7, 11, 962, 8, 12, 963];
        self.hold(6, 2, &triples);
        self.plain("held", &[0, 4]);
        self.plain("request", &[0, 9, 13, 970]);
        self.plain("held", &[0, 5]);
        self.plain("issue", &[0, 970, 5, 14, 36]);
        self.plain("held", &[0, 64]);
    }
}
