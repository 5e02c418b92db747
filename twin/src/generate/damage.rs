//! Damage to a valid MAP: each field, each boundary, each refusal.

use super::random::Random;
use crate::message::*;

/// Kinds below this change fields and elements, the others bytes.
pub const FIELD_KINDS: usize = 15;
pub const KINDS: usize = 20;

/// The bytes of a MAP after damage of some kinds, fields before bytes.
pub fn damaged(random: &mut Random, mut map: Map, kinds: &[usize]) -> Vec<u8> {
    for &kind in kinds.iter().filter(|&&kind| kind < FIELD_KINDS) {
        damage_fields(random, &mut map, kind);
    }
    let mut bytes = lay_out(&map);
    for &kind in kinds.iter().filter(|&&kind| kind >= FIELD_KINDS) {
        damage_bytes(random, &mut bytes, kind);
    }
    bytes
}

pub fn damage_fields(random: &mut Random, map: &mut Map, kind: usize) {
    match kind {
        0 => use_out_of_range(random, map),
        1 => map.elements[0] = Element::new(0, NULL_USE, 0),
        2 => acknowledge_before_null(random, map),
        3 => wrong_use_after_null(random, map),
        4 => no_null(random, map),
        5 | 6 => sid_not_allowed(random, map),
        7 => map.elements[0].offset = random.pick(&[1, 2, 4_096, 4_097, 5_000, 16_383]),
        8 => offset_not_greater(random, map),
        9 => offset_after_null(random, map),
        10 => offset_over_limit(random, map),
        11 | 12 => long_grant(random, map),
        13 => element_at_limit(random, map),
        _ => backoff(random, map),
    }
}

fn damage_bytes(random: &mut Random, bytes: &mut Vec<u8>, kind: usize) {
    let length = bytes.len();
    match kind {
        15 => {
            let inside = random.below(16);
            bytes.truncate(random.pick(&[0, 1, 3, 12, 15, inside]));
        }
        16 if length > 2 => bytes[2] = random.pick(&[0, 241, 242, 255]),
        17 => {
            let less = random.pick(&[1, 2, 3, 4, 8]);
            bytes.truncate(length.saturating_sub(less).max(16));
        }
        18 => {
            let more = random.pick(&[1, 2, 3, 4, 8]);
            bytes.resize(length + more, random.pick(&[0, 0xA5, 0xFF]));
        }
        19 if length > 0 => {
            let at = random.below(length);
            bytes[at] ^= 1 << random.below(8);
        }
        _ => {}
    }
}

/// Any of so many, the last one often.
fn somewhere(random: &mut Random, choices: usize) -> usize {
    match random.chance(25) {
        true => choices - 1,
        false => random.below(choices),
    }
}

fn use_out_of_range(random: &mut Random, map: &mut Map) {
    let at = somewhere(random, map.elements.len());
    map.elements[at].usage = random.pick(&[0, 9, 10, 15]);
}

fn acknowledge_before_null(random: &mut Random, map: &mut Map) {
    let at = somewhere(random, map.null().clamp(1, map.elements.len()));
    map.elements[at].usage = ACKNOWLEDGE;
    if random.chance(50) {
        map.elements[at].sid = random.unicast();
    }
}

/// Every SID here is allowed for its use, so that 10 alone can answer.
fn wrong_use_after_null(random: &mut Random, map: &mut Map) {
    let (sid, usage) = random.pick(&[
        (BROADCAST, REQUEST),
        (0x3FF4, REQUEST_DATA),
        (BROADCAST, INITIAL_MAINTENANCE),
        (9, STATION_MAINTENANCE),
        (0, NULL_USE),
    ]);
    let offset = map.length() + random.pick(&[0, 0, 5]);
    let null = map.null();
    let at = random.below(map.elements.len().saturating_sub(null).max(1));
    let at = (null + 1 + at).min(map.elements.len());
    map.elements.insert(at, Element::new(sid, usage, offset));
}

fn no_null(random: &mut Random, map: &mut Map) {
    let null = map.null();
    if random.chance(70) {
        map.elements.truncate(null);
    } else if null < map.elements.len() {
        map.elements[null] = Element::new(BROADCAST, REQUEST, map.length());
    }
    if map.elements.is_empty() || random.chance(20) {
        map.elements = vec![Element::new(BROADCAST, REQUEST, 0)];
    }
}

/// The nearest SIDs outside each range.
fn sid_not_allowed(random: &mut Random, map: &mut Map) {
    let at = somewhere(random, map.elements.len());
    let usage = map.elements[at].usage;
    let edges = [
        0, 1, 0x1FFF, 0x2000, 0x3DFF, 0x3E00, 0x3E01, 0x3EFF, 0x3F00, 0x3FF0, 0x3FF1, 0x3FFE,
        0x3FFF,
    ];
    let mut outside = edges.to_vec();
    outside.retain(|&sid| !sid_allowed(usage, sid));
    if !outside.is_empty() {
        map.elements[at].sid = random.pick(&outside);
    }
}

fn offset_not_greater(random: &mut Random, map: &mut Map) {
    let last = map.null().min(map.elements.len() - 1);
    if last == 0 {
        return;
    }
    let at = 1 + somewhere(random, last);
    let before = map.elements[at - 1].offset;
    map.elements[at].offset = random.pick(&[before, before.saturating_sub(1), 0]);
}

fn offset_after_null(random: &mut Random, map: &mut Map) {
    let length = map.length();
    if map.null() + 1 >= map.elements.len() {
        let sid = random.unicast();
        map.elements.push(Element::new(sid, ACKNOWLEDGE, length));
    }
    let first = map.null() + 1;
    if first < map.elements.len() {
        let at = first + somewhere(random, map.elements.len() - first);
        let less = length.saturating_sub(1);
        map.elements[at].offset = random.pick(&[less, length + 1, 0, 4_097, 16_383]);
    }
}

fn offset_over_limit(random: &mut Random, map: &mut Map) {
    let last = map.null().min(map.elements.len() - 1);
    let at = last - random.below(last.max(1));
    map.elements[at].offset = random.pick(&[4_097, 4_098, 5_000, 16_383]);
}

/// A grant of 256 or more, or of 255 exactly, before a random element.
fn long_grant(random: &mut Random, map: &mut Map) {
    let null = map.null().min(map.elements.len());
    let at = somewhere(random, null + 1);
    let offset = map.elements.get(at).map_or(0, |e| e.offset);
    let length = random.pick(&[255, 256, 256, 257, 300]);
    for element in &mut map.elements[at..] {
        element.offset += length;
    }
    let usage = random.pick(&[SHORT_GRANT, LONG_GRANT]);
    let grant = Element::new(random.unicast(), usage, offset);
    map.elements.insert(at, grant);
}

/// An element at 4,096 is fine; whatever closes it is not.
fn element_at_limit(random: &mut Random, map: &mut Map) {
    let null = map.null();
    if null >= map.elements.len() {
        return;
    }
    map.elements.truncate(null);
    let (sid, usage) = random.pick(&[(BROADCAST, REQUEST), (5, SHORT_GRANT), (0x3FF1, 2)]);
    map.elements.push(Element::new(sid, usage, LONGEST_MAP));
    let closing = random.pick(&[4_095, 4_096, 4_097, 4_351, 4_352, 4_353]);
    if random.chance(85) {
        map.elements.push(Element::new(0, NULL_USE, closing));
    }
}

fn backoff(random: &mut Random, map: &mut Map) {
    let at = random.below(4);
    match random.between(0, 2) {
        0 => map.backoffs[at] = random.pick(&[16, 17, 128, 255]),
        1 => map.backoffs[at & 2] = map.backoffs[at | 1].wrapping_add(1),
        _ => {
            let both = random.pick(&[15, 16]);
            map.backoffs[at & 2] = both;
            map.backoffs[at | 1] = both;
        }
    }
}
