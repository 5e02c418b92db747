//! Document 01's "Numbers to check" and the report's example.

use twin::message::*;
use twin::refusal::Refusal;
use twin::script::answers;
use twin::station::{contention, Heard, State, Station};
use twin::time;

const EXAMPLE: [&str; 2] = [
    "x01020300000003e8000003d400040206fffc4000001580060001c01e",
    "x01020200000003ca000003c000040206fffc40000001c01e",
];

fn map(start: u32, ack: u32, data: [u8; 2], intervals: &[(u32, u32, u32)]) -> Map {
    let mut at = 0;
    let mut elements = Vec::new();
    for &(sid, usage, length) in intervals {
        elements.push(Element::new(sid, usage, at));
        at += length;
    }
    elements.push(Element::new(0, NULL_USE, at));
    Map {
        channel: 1,
        count: 2,
        start,
        ack,
        backoffs: [0, 0, data[0], data[1]],
        elements,
    }
}

fn hear(station: &mut Station, map: &Map, draw: u16) -> Heard {
    let present = map.start.wrapping_sub(1);
    station.hear(&lay_out(map), present, draw).unwrap()
}

fn deferring(r: u32, left: u32) -> Station {
    let mut station = Station::new(5, 1, 2, r).unwrap();
    station.state = State::Deferring {
        size: 9,
        exponent: 4,
        left,
        retries: 0,
    };
    station
}

fn left(station: &Station) -> Option<u32> {
    match station.state {
        State::Deferring { left, .. } => Some(left),
        _ => None,
    }
}

fn refused(number: u32, element: u32) -> Option<Refusal> {
    Some(Refusal { number, element })
}

#[test]
fn element_words() {
    let words = map(1_000, 980, [2, 6], &[(BROADCAST, 1, 6), (5, 6, 24)]);
    let bytes = lay_out(&words);
    assert_eq!(bytes[16..20], [0xFF, 0xFC, 0x40, 0x00]);
    assert_eq!(bytes[20..24], [0x00, 0x15, 0x80, 0x06]);
    assert_eq!(bytes[24..28], [0x00, 0x01, 0xC0, 0x1E]);
    assert_eq!(read(&bytes).unwrap(), words);
}

#[test]
fn report_example() {
    let script = format!(
        "read {}\nread {}\nspan 1000 30 970 30\n",
        EXAMPLE[0], EXAMPLE[1]
    );
    let expected = "map 1 2 3 1000 980 0 4 2 6 2 30\n\
                    map 1 2 2 970 960 0 4 2 6 1 30\n\
                    span 970 1030 0\n";
    assert_eq!(answers(script.as_bytes()), expected);
    let written = "write 28 1 2 1000 980 0 4 2 6 16383 1 0 5 6 6 0 7 30";
    let expected = format!("wrote 28 {}\n", EXAMPLE[0]);
    assert_eq!(answers(written.as_bytes()), expected);
}

#[test]
fn defer_eleven() {
    let mut station = deferring(1, 11);
    hear(
        &mut station,
        &map(1_000, 980, [2, 6], &[(BROADCAST, 1, 6)]),
        0,
    );
    assert_eq!(left(&station), Some(5));
    hear(
        &mut station,
        &map(1_006, 980, [2, 6], &[(BROADCAST, 1, 2)]),
        0,
    );
    assert_eq!(left(&station), Some(3));
    let heard = hear(
        &mut station,
        &map(1_008, 980, [2, 6], &[(BROADCAST, 1, 8)]),
        0,
    );
    assert_eq!(heard.sent, Some(1_011));
}

#[test]
fn opportunities() {
    let three = map(0, 0, [0, 0], &[(0x3FF2, 2, 7)]);
    assert_eq!(contention(&three, 1), [0, 2, 4]);
    assert_eq!(contention(&three, 2), [0, 2, 4]);
    assert!(contention(&three, 3).is_empty());
    let short = map(0, 0, [0, 0], &[(BROADCAST, 1, 3)]);
    assert!(contention(&short, 4).is_empty());
}

#[test]
fn earlier_times() {
    assert!(time::earlier(4_294_967_290, 4));
    assert!(!time::earlier(4, 4_294_967_290));
    assert!(!time::earlier(0, 1 << 31));
    assert!(!time::earlier(1 << 31, 0));
}

#[test]
fn limits() {
    let grant = |length| read(&lay_out(&map(0, 0, [0, 0], &[(5, 5, length)]))).err();
    assert_eq!(grant(255), None);
    assert_eq!(grant(256), refused(9, 1));
    let long = |length| read(&lay_out(&map(0, 0, [0, 0], &[(BROADCAST, 1, length)]))).err();
    assert_eq!(long(4_096), None);
    assert_eq!(long(4_097), refused(8, 1));
    let many = |n: usize| {
        read(&lay_out(&map(
            0,
            0,
            [0, 0],
            &vec![(BROADCAST, 1, 1); n - 1],
        )))
        .err()
    };
    assert_eq!(many(240), None);
    assert_eq!(many(241), refused(2, 0));
}

#[test]
fn exponents() {
    let mut station = Station::new(5, 1, 2, 1).unwrap();
    station.offer(9).unwrap();
    let mut seen = Vec::new();
    for start in 1_000..1_004 {
        hear(
            &mut station,
            &map(start, start, [2, 4], &[(BROADCAST, 1, 1)]),
            0,
        );
        if let State::Waiting { exponent, .. } = station.state {
            seen.push(exponent);
        }
    }
    assert_eq!(seen, [2, 3, 4, 4]);
}

#[test]
fn lost_only_when_earlier() {
    let mut station = Station::new(5, 1, 2, 1).unwrap();
    let waiting = State::Waiting {
        size: 9,
        exponent: 2,
        retries: 0,
        time: 500,
    };
    station.state = waiting;
    hear(
        &mut station,
        &map(1_000, 500, [2, 6], &[(BROADCAST, 1, 1)]),
        7,
    );
    assert_eq!(station.state, waiting);
    hear(
        &mut station,
        &map(1_001, 501, [2, 6], &[(BROADCAST, 1, 1)]),
        7,
    );
    assert_eq!(left(&station), Some(6));
}

#[test]
fn seventeenth_loss_drops() {
    let mut station = Station::new(5, 1, 2, 1).unwrap();
    station.offer(9).unwrap();
    let mut sent = 0;
    for i in 0..18u32 {
        let start = i.wrapping_sub(9);
        let heard = hear(
            &mut station,
            &map(start, start, [2, 4], &[(BROADCAST, 1, 1)]),
            0,
        );
        sent += u32::from(heard.sent.is_some());
    }
    assert_eq!(sent, 17);
    assert_eq!(station.state, State::Idle);
}

#[test]
fn spans_and_timestamps() {
    let thirds = [(0, 30), (1_431_655_765, 30), (2_863_311_530, 30)];
    assert_eq!(time::span(&thirds), None);
    assert_eq!(time::begins(1_000, 2), Ok(256_000));
    assert_eq!(
        time::begins(u32::MAX, 7).unwrap(),
        0u32.wrapping_sub(128 * 64)
    );
    assert!(time::begins(1_000, 0).is_err() && time::begins(1_000, 8).is_err());
}
