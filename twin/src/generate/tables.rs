//! Tables of stations that hear one MAP.

use super::damage::{damaged, KINDS};
use super::Generator;
use crate::message::lay_out;
use crate::station::State;

impl Generator {
    /// A row of stations on one channel, with a bad record here and there,
    /// and some MAPs for all of them.
    pub fn table_story(&mut self) {
        let count = self.random.pick(&[1, 2, 3, 3, 4, 5]);
        let first = self.random.between(0, 40 - count);
        let end = self.random.moment();
        for place in first..first + count {
            self.member(place, end);
        }
        for _ in 0..self.random.between(2, 6) {
            for place in first..first + count {
                let idle = self.station(place).state == State::Idle;
                if idle && self.random.chance(60) {
                    self.offer_call(place);
                }
            }
            self.heard_by(first, count);
        }
    }

    fn member(&mut self, place: u32, end: u32) {
        let sid = self.random.unicast();
        let r = self.random.pick(&[1, 1, 2, 3]);
        if self.random.chance(70) {
            self.plain("station", &[place, sid, 1, 2, r]);
            return;
        }
        let mut fields = [sid, 1, 2, r, 1, end, 2, 9, 3, 4, 0, 0];
        match self.random.between(0, 6) {
            0 => fields[0] = 0,
            1 => fields[3] = 0,
            2 => fields[1] = 7,
            3 => fields[2] = 7,
            4 => fields[5] = end.wrapping_add(5_000),
            5 => fields[9] = 32_768,
            _ => {}
        }
        self.record_call(place, fields);
    }

    /// A MAP made for one of the stations and heard by all.
    fn heard_by(&mut self, first: u32, count: u32) {
        let place = first + self.random.below(count as usize) as u32;
        let station = self.station(place);
        let map = self.map_for(&station);
        let present = match self.random.chance(5) {
            true => map.start,
            false => map.start.wrapping_sub(1),
        };
        let bytes = match self.random.chance(30) {
            true => {
                let kind = self.deck("table damage", KINDS);
                damaged(&mut self.random, map, &[kind])
            }
            false => lay_out(&map),
        };
        let draws = self.lent(count);
        let places = self.lent(count);
        self.table(&[first, count, present, places], draws, &bytes);
        self.plain("show", &[place]);
    }

    /// Mostly enough, sometimes one too few, sometimes more.
    fn lent(&mut self, count: u32) -> u32 {
        let enough = count.min(40);
        let more = (enough + 2).min(40);
        let less = enough.saturating_sub(1);
        let choices = [enough, enough, enough, enough, enough, more, more, less];
        self.random.pick(&choices)
    }

    fn table(&mut self, front: &[u32; 4], draws: u32, bytes: &[u8]) {
        let mut numbers = front.to_vec();
        for _ in 0..draws {
            numbers.push(self.random.draw());
        }
        self.with_bytes("table", &numbers, bytes);
    }

    /// Any stretch of the places, as they happen to be, at the limits of a
    /// table's length.
    pub fn table_call(&mut self) {
        let count = match self.deck("table length", 8) {
            0 => 0,
            1 => 32,
            2 => 33,
            3 => self.random.pick(&[31, 34, 40]),
            _ => self.random.between(1, 8),
        };
        let first = self.random.between(0, 39.min(40 - count));
        let station = self.station(first);
        let map = self.map_for(&station);
        let present = map.start.wrapping_sub(1);
        let draws = self.lent(count);
        let places = self.lent(count);
        let bytes = lay_out(&map);
        self.table(&[first, count, present, places], draws, &bytes);
        let last = first + count.max(1) - 1;
        self.plain("show", &[last]);
    }
}
