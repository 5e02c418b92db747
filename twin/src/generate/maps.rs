//! Valid MAPs, aimed at a station that may hear them.

use super::random::Random;
use crate::message::*;

/// The station a MAP is made for.
#[derive(Clone, Copy)]
pub struct Aim {
    pub sid: u32,
    pub r: u32,
}

impl Aim {
    pub fn any(random: &mut Random) -> Aim {
        Aim {
            sid: random.unicast(),
            r: random.request_length(),
        }
    }
}

/// Elements laid one after another.
pub struct Layout {
    pub elements: Vec<Element>,
    pub at: u32,
}

impl Layout {
    pub fn new() -> Layout {
        Layout {
            elements: Vec::new(),
            at: 0,
        }
    }

    /// Leaves the interval out where the MAP would grow too long.
    pub fn interval(&mut self, sid: u32, usage: u32, length: u32) {
        if length > 0 && self.at + length <= LONGEST_MAP {
            self.elements.push(Element::new(sid, usage, self.at));
            self.at += length;
        }
    }

    pub fn close(&mut self) {
        if self.elements.is_empty() {
            self.interval(BROADCAST, REQUEST, 1);
        }
        self.elements.push(Element::new(0, NULL_USE, self.at));
    }

    pub fn after(&mut self, sid: u32, usage: u32) {
        self.elements.push(Element::new(sid, usage, self.at));
    }
}

impl Default for Layout {
    fn default() -> Layout {
        Layout::new()
    }
}

/// A length about a whole number of steps.
fn stretch(random: &mut Random, step: u32) -> u32 {
    let steps = random.between(0, 6) * step;
    let off = random.pick(&[0, 0, 1, step - 1]);
    (steps + off).max(1)
}

/// One interval, of a kind that matters to the station or that it must
/// pass over.
pub fn add_interval(random: &mut Random, layout: &mut Layout, aim: Aim) {
    let other = random.unicast();
    let whose = random.pick(&[aim.sid, other]);
    let grant = random.pick(&[SHORT_GRANT, LONG_GRANT]);
    match random.between(0, 15) {
        0..=3 => {
            let length = stretch(random, aim.r);
            layout.interval(BROADCAST, REQUEST, length);
        }
        4..=6 => {
            let near = random.between(aim.r.saturating_sub(1).clamp(1, 14), 14);
            let n = random.pick(&[aim.r.min(14), near, 1, 14]);
            let length = stretch(random, n);
            layout.interval(0x3FF0 + n, REQUEST_DATA, length);
        }
        7 => {
            let length = random.pick(&[aim.r - 1, aim.r, aim.r + 1]);
            layout.interval(whose, REQUEST, length);
        }
        8 => layout.interval(aim.sid, grant, random.size()),
        9..=11 => layout.interval(other, grant, random.size()),
        12 => {
            let station = random.between(0x3E01, 0x3EFF);
            let group = random.multicast();
            let sid = random.pick(&[group, station, 0x3E01, 0x3EFF]);
            layout.interval(sid, REQUEST, random.between(1, 20));
        }
        13 => layout.interval(random.multicast(), REQUEST_DATA, random.between(1, 20)),
        14 => {
            let group = random.multicast();
            let sid = random.pick(&[BROADCAST, group]);
            layout.interval(sid, INITIAL_MAINTENANCE, random.between(1, 300));
        }
        _ => layout.interval(whose, STATION_MAINTENANCE, random.between(1, 30)),
    }
}

/// What stands after the Null: pendings and acknowledgements.
pub fn add_after(random: &mut Random, layout: &mut Layout, aim: Aim) {
    for _ in 0..random.pick(&[0, 0, 1, 1, 2, 3]) {
        let other = random.unicast();
        let sid = random.pick(&[aim.sid, other, other]);
        let usage = random.pick(&[SHORT_GRANT, LONG_GRANT, ACKNOWLEDGE]);
        layout.after(sid, usage);
    }
}

pub fn small(random: &mut Random, aim: Aim) -> Layout {
    let mut layout = Layout::new();
    for _ in 0..random.pick(&[1, 1, 2, 2, 3, 4, 6]) {
        add_interval(random, &mut layout, aim);
    }
    layout.close();
    add_after(random, &mut layout, aim);
    layout
}

/// Exactly n elements, the Null anywhere from element 1 on.
pub fn of_count(random: &mut Random, aim: Aim, n: usize) -> Layout {
    let last = n as u32 - 1;
    let anywhere = random.between(1, last);
    let null = random.pick(&[last, last, 1, anywhere]) as usize;
    let mut layout = Layout::new();
    while layout.elements.len() < null {
        let length = random.between(1, 16);
        let other = random.unicast();
        let own = random.pick(&[aim.sid, other, other]);
        let (sid, usage) = random.pick(&[(BROADCAST, 1), (own, 1), (0x3FF3, 2), (other, 5)]);
        layout.interval(sid, usage, length);
    }
    layout.close();
    while layout.elements.len() < n {
        let other = random.unicast();
        let sid = random.pick(&[aim.sid, other, other]);
        let usage = random.pick(&[SHORT_GRANT, LONG_GRANT, ACKNOWLEDGE]);
        layout.after(sid, usage);
    }
    layout
}

/// Map length 4,096 exactly.
pub fn longest(random: &mut Random, aim: Aim) -> Layout {
    let mut layout = Layout::new();
    layout.interval(aim.sid, SHORT_GRANT, random.pick(&[0, 0, 255]));
    layout.interval(0x3FF1, REQUEST_DATA, random.pick(&[0, 10, 2_000]));
    let rest = LONGEST_MAP - layout.at;
    layout.interval(BROADCAST, REQUEST, rest);
    layout.close();
    add_after(random, &mut layout, aim);
    layout
}

/// A MAP around some elements, its other fields at random.
pub fn around(random: &mut Random, layout: Layout) -> Map {
    let start = random.moment();
    let back = random.between(0, 500);
    Map {
        channel: random.pick(&[0, 1, 2, 255]),
        count: random.pick(&[0, 1, 7, 255]),
        start,
        ack: start.wrapping_sub(back),
        backoffs: random.backoffs(),
        elements: layout.elements,
    }
}
