//! The head of every script: document 01's "Numbers to check".

use super::Generator;
use crate::message::*;

/// A MAP of channel 1, count 2, from (SID, use, length) up to a Null.
pub fn map(start: u32, ack: u32, backoffs: [u8; 4], intervals: &[(u32, u32, u32)]) -> Map {
    let mut at = 0;
    let mut elements = Vec::new();
    for &(sid, usage, length) in intervals {
        elements.push(Element::new(sid, usage, at));
        at += length;
    }
    elements.push(Element::new(0, NULL_USE, at));
    Map {
        channel: 1,
        count: 2,
        start,
        ack,
        backoffs,
        elements,
    }
}

const BACKOFFS: [u8; 4] = [0, 4, 2, 6];

impl Generator {
    pub fn numbers_to_check(&mut self) {
        self.report_example();
        self.times_to_check();
        self.limits_to_check();
        self.deferring_to_check();
        self.opportunities_to_check();
        self.waiting_to_check();
        self.exponents_to_check();
        self.last_loss_to_check();
    }

    fn hear_map(&mut self, place: u32, draw: u32, map: &Map) {
        let numbers = [place, map.start.wrapping_sub(1), draw];
        self.with_bytes("hear", &numbers, &lay_out(map));
    }

    fn deferring(&mut self, place: u32, r: u32, left: u32) {
        self.record_call(place, [5, 1, 2, r, 0, 0, 2, 9, 4, left, 0, 0]);
    }

    fn report_example(&mut self) {
        let first = map(1_000, 980, BACKOFFS, &[(BROADCAST, 1, 6), (5, 6, 24)]);
        let second = map(970, 960, BACKOFFS, &[(BROADCAST, 1, 30)]);
        for example in [first, second] {
            let size = lay_out(&example).len() as u32;
            self.write_call(size, &example);
            self.with_bytes("read", &[], &lay_out(&example));
            self.with_bytes("after", &[], &lay_out(&example));
            self.with_bytes("grant", &[5, 0], &lay_out(&example));
        }
        self.plain("span", &[1_000, 30, 970, 30]);
    }

    fn times_to_check(&mut self) {
        self.plain("earlier", &[4_294_967_290, 4]);
        self.plain("earlier", &[4, 4_294_967_290]);
        self.plain("earlier", &[0, 2_147_483_648]);
        self.plain("earlier", &[2_147_483_648, 0]);
        let thirds = [0, 30, 1_431_655_765, 30, 2_863_311_530, 30];
        self.plain("span", &thirds);
        self.plain("span", &[0, 30, 2_147_483_617, 30]);
        self.plain("span", &[0, 30, 2_147_483_618, 30]);
        self.plain("begins", &[1_000, 2]);
    }

    fn limits_to_check(&mut self) {
        for length in [255, 256] {
            let grant = map(1_000, 980, BACKOFFS, &[(5, 5, length)]);
            self.with_bytes("read", &[], &lay_out(&grant));
        }
        for length in [4_096, 4_097] {
            let long = map(1_000, 980, BACKOFFS, &[(BROADCAST, 1, length)]);
            self.with_bytes("read", &[], &lay_out(&long));
        }
        for n in [240, 241] {
            let many = map(1_000, 980, BACKOFFS, &vec![(BROADCAST, 1, 3); n - 1]);
            self.with_bytes("read", &[], &lay_out(&many));
        }
    }

    /// Defer 11 over intervals of 6, 2, 8: in three MAPs, then in one.
    fn deferring_to_check(&mut self) {
        self.deferring(0, 1, 11);
        for (start, length) in [(1_000, 6), (1_006, 2), (1_008, 8)] {
            let heard = map(start, 980, BACKOFFS, &[(BROADCAST, 1, length)]);
            self.hear_map(0, 0, &heard);
        }
        self.deferring(0, 1, 11);
        let intervals = [(BROADCAST, 1, 6), (BROADCAST, 1, 2), (BROADCAST, 1, 8)];
        self.hear_map(0, 0, &map(1_000, 980, BACKOFFS, &intervals));
    }

    fn opportunities_to_check(&mut self) {
        for left in 0..4 {
            self.deferring(1, 1, left);
            let heard = map(1_000, 980, BACKOFFS, &[(0x3FF2, 2, 7)]);
            self.hear_map(1, 0, &heard);
        }
        self.deferring(1, 4, 0);
        let heard = map(1_000, 980, BACKOFFS, &[(BROADCAST, 1, 3)]);
        self.hear_map(1, 0, &heard);
    }

    fn waiting_to_check(&mut self) {
        self.record_call(2, [5, 1, 2, 1, 0, 0, 3, 9, 2, 0, 0, 500]);
        for (start, ack) in [(1_000, 500), (1_001, 501)] {
            let heard = map(start, ack, BACKOFFS, &[(BROADCAST, 1, 1)]);
            self.hear_map(2, 7, &heard);
        }
    }

    /// From start 2, end 4: 2, 3, 4, 4.
    fn exponents_to_check(&mut self) {
        self.plain("station", &[3, 5, 1, 2, 1]);
        self.plain("offer", &[3, 9]);
        for i in 0..4 {
            let start = 1_000 + i;
            let heard = map(start, start, [0, 0, 2, 4], &[(BROADCAST, 1, 1)]);
            self.hear_map(3, 0, &heard);
        }
    }

    /// Seventeen losses; the last drops the packet. Time rolls over midway.
    fn last_loss_to_check(&mut self) {
        self.plain("station", &[4, 5, 1, 2, 1]);
        self.plain("offer", &[4, 9]);
        for i in 0..18u32 {
            let start = i.wrapping_sub(9);
            let heard = map(start, start, [0, 0, 2, 4], &[(BROADCAST, 1, 1)]);
            self.hear_map(4, 0, &heard);
        }
    }
}
