//! The MAP message: read, written, and asked for grants
//! (document 01, "The message").

use crate::refusal::*;
use crate::time::later;

pub const MOST_ELEMENTS: usize = 240;
pub const LONGEST_MAP: u32 = 4_096;
pub const LONGEST_GRANT: u32 = 255;
pub const BROADCAST: u32 = 0x3FFF;

pub const REQUEST: u32 = 1;
pub const REQUEST_DATA: u32 = 2;
pub const INITIAL_MAINTENANCE: u32 = 3;
pub const STATION_MAINTENANCE: u32 = 4;
pub const SHORT_GRANT: u32 = 5;
pub const LONG_GRANT: u32 = 6;
pub const NULL_USE: u32 = 7;
pub const ACKNOWLEDGE: u32 = 8;

/// Fields are wider than their bits, since the writer meets any number.
#[derive(Debug, Clone, Copy, PartialEq, Eq)]
pub struct Element {
    pub sid: u32,
    pub usage: u32,
    pub offset: u32,
}

impl Element {
    pub fn new(sid: u32, usage: u32, offset: u32) -> Element {
        Element { sid, usage, offset }
    }

    pub fn is_grant(&self) -> bool {
        self.usage == SHORT_GRANT || self.usage == LONG_GRANT
    }

    fn from_word(word: u32) -> Element {
        Element::new(word >> 18, word >> 14 & 0xF, word & 0x3FFF)
    }

    fn word(&self) -> u32 {
        (self.sid & 0x3FFF) << 18 | (self.usage & 0xF) << 14 | self.offset & 0x3FFF
    }
}

/// An element before the Null, with the length up to the next one.
#[derive(Debug, Clone, Copy, PartialEq, Eq)]
pub struct Interval {
    pub element: Element,
    pub length: u32,
}

/// Backoffs stand in the message's order: ranging start, ranging end, data
/// start, data end.
#[derive(Debug, Clone, PartialEq, Eq)]
pub struct Map {
    pub channel: u8,
    pub count: u8,
    pub start: u32,
    pub ack: u32,
    pub backoffs: [u8; 4],
    pub elements: Vec<Element>,
}

impl Map {
    /// Index of the Null; a message without one counts all its elements.
    pub fn null(&self) -> usize {
        let found = self.elements.iter().position(|e| e.usage == NULL_USE);
        found.unwrap_or(self.elements.len())
    }

    pub fn length(&self) -> u32 {
        self.elements.get(self.null()).map_or(0, |e| e.offset)
    }

    pub fn end(&self) -> u32 {
        later(self.start, self.length())
    }

    pub fn intervals(&self) -> Vec<Interval> {
        let upto_null = &self.elements[..self.elements.len().min(self.null() + 1)];
        let pairs = upto_null.windows(2);
        pairs
            .map(|pair| Interval {
                element: pair[0],
                length: pair[1].offset - pair[0].offset,
            })
            .collect()
    }

    /// First mini-slot and length of each grant to a SID, in order.
    pub fn grants(&self, sid: u32) -> Vec<(u32, u32)> {
        let all = self.intervals().into_iter();
        all.filter(|i| i.element.is_grant() && i.element.sid == sid)
            .map(|i| (later(self.start, i.element.offset), i.length))
            .collect()
    }

    pub fn has_pending(&self, sid: u32) -> bool {
        let mut after = self.elements.iter().skip(self.null() + 1);
        after.any(|e| e.is_grant() && e.sid == sid)
    }
}

pub fn is_unicast(sid: u32) -> bool {
    (0x0001..=0x1FFF).contains(&sid)
}

pub fn sid_allowed(usage: u32, sid: u32) -> bool {
    match usage {
        REQUEST => matches!(sid, 0x0001..=0x3DFF | 0x3E01..=0x3EFF | 0x3FFF),
        REQUEST_DATA => matches!(sid, 0x2000..=0x3DFF | 0x3FF1..=0x3FFE),
        INITIAL_MAINTENANCE => matches!(sid, 0x2000..=0x3DFF | 0x3FFF),
        STATION_MAINTENANCE | SHORT_GRANT | LONG_GRANT | ACKNOWLEDGE => is_unicast(sid),
        NULL_USE => sid == 0,
        _ => false,
    }
}

pub fn check_backoffs(backoffs: &[u8; 4]) -> Result<(), Refusal> {
    let [ranging_start, ranging_end, data_start, data_end] = *backoffs;
    let too_large = backoffs.iter().any(|&value| value > 15);
    if too_large || ranging_start > ranging_end || data_start > data_end {
        return refuse(BACKOFF);
    }
    Ok(())
}

fn check_count(n: usize) -> Result<(), Refusal> {
    if n == 0 || n > MOST_ELEMENTS {
        return refuse(COUNT);
    }
    Ok(())
}

/// Element by element, each through 5, 10, 6, 7, 8, 9; a missing Null last.
fn check_elements(elements: &[Element]) -> Result<(), Refusal> {
    let mut null = None;
    for (index, element) in elements.iter().enumerate() {
        if let Some(number) = fault(elements, index, null) {
            return refuse_at(number, index);
        }
        if element.usage == NULL_USE {
            null = Some(index);
        }
    }
    match null {
        Some(_) => Ok(()),
        None => refuse_at(NULL, elements.len()),
    }
}

/// The first fault of one element; `null` is the Null's index once passed.
fn fault(elements: &[Element], index: usize, null: Option<usize>) -> Option<u32> {
    let element = elements[index];
    if !(1..=8).contains(&element.usage) {
        return Some(USE);
    }
    let misplaced = match null {
        None => (index == 0 && element.usage == NULL_USE) || element.usage == ACKNOWLEDGE,
        Some(_) => !matches!(element.usage, SHORT_GRANT | LONG_GRANT | ACKNOWLEDGE),
    };
    if misplaced {
        return Some(NULL);
    }
    if !sid_allowed(element.usage, element.sid) {
        return Some(SID);
    }
    match null {
        Some(at) => (element.offset != elements[at].offset).then_some(PLACE),
        None if index == 0 => (element.offset != 0).then_some(PLACE),
        None => offset_fault(elements[index - 1], element),
    }
}

/// 7, 8, 9 of an element that closes the interval of the one before it.
fn offset_fault(before: Element, element: Element) -> Option<u32> {
    if element.offset <= before.offset {
        return Some(PLACE);
    }
    if element.offset > LONGEST_MAP {
        return Some(SPAN);
    }
    if before.is_grant() && element.offset - before.offset > LONGEST_GRANT {
        return Some(GRANT);
    }
    None
}

fn big_endian(bytes: &[u8]) -> u32 {
    bytes.iter().fold(0, |sum, &b| sum << 8 | u32::from(b))
}

pub fn read(bytes: &[u8]) -> Result<Map, Refusal> {
    if bytes.len() < 16 {
        return refuse(SHORT);
    }
    let n = usize::from(bytes[2]);
    check_count(n)?;
    if bytes.len() != 16 + 4 * n {
        return refuse(LENGTH);
    }
    let words = bytes[16..].chunks(4).map(big_endian);
    let map = Map {
        channel: bytes[0],
        count: bytes[1],
        start: big_endian(&bytes[4..8]),
        ack: big_endian(&bytes[8..12]),
        backoffs: [bytes[12], bytes[13], bytes[14], bytes[15]],
        elements: words.map(Element::from_word).collect(),
    };
    check_backoffs(&map.backoffs)?;
    check_elements(&map.elements)?;
    Ok(map)
}

/// The bytes that follow the Null; none if the message is refused.
pub fn after(bytes: &[u8]) -> &[u8] {
    match read(bytes) {
        Ok(map) => &bytes[16 + 4 * (map.null() + 1)..],
        Err(_) => &[],
    }
}

/// The layout alone: nothing is checked, and a value loses the bits that
/// its place doesn't have.
pub fn lay_out(map: &Map) -> Vec<u8> {
    let mut bytes = vec![map.channel, map.count, map.elements.len() as u8, 0];
    bytes.extend(map.start.to_be_bytes());
    bytes.extend(map.ack.to_be_bytes());
    bytes.extend(map.backoffs);
    for element in &map.elements {
        bytes.extend(element.word().to_be_bytes());
    }
    bytes
}

/// Writes the message at the front of the lent bytes and answers its size.
pub fn write(map: &Map, lent: &mut [u8]) -> Result<usize, Refusal> {
    check_count(map.elements.len())?;
    check_backoffs(&map.backoffs)?;
    check_elements(&map.elements)?;
    let bytes = lay_out(map);
    if lent.len() < bytes.len() {
        return refuse(ROOM);
    }
    lent[..bytes.len()].copy_from_slice(&bytes);
    Ok(bytes.len())
}

/// The k-th grant to a SID, by first mini-slot and length.
pub fn grant(bytes: &[u8], sid: u32, k: u32) -> Result<Option<(u32, u32)>, Refusal> {
    let grants = read(bytes)?.grants(sid);
    Ok(grants.get(k as usize).copied())
}
