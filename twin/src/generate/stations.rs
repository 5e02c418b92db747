//! Stations: set-up, records of any content, and long orders of offers and
//! MAPs heard.

use super::damage::{damaged, KINDS};
use super::maps::{self, Aim, Layout};
use super::random::Random;
use super::Generator;
use crate::message::*;
use crate::station::{State, Station};

const HALF: u32 = 1 << 31;

impl Generator {
    pub fn set_up_station(&mut self) {
        let place = self.random.between(0, 39);
        let channel = self.random.between(0, 255);
        let (mut sid, mut r) = (self.random.unicast(), self.random.request_length());
        let odd_sid = self
            .random
            .pick(&[0, 0x2000, 0x3FFF, 0x4001, 0x10001, u32::MAX]);
        let odd_r = self.random.pick(&[0, 17, 257, 65_537, u32::MAX]);
        match self.deck("set up station", 6) {
            0 => sid = odd_sid,
            1 => r = odd_r,
            2 => (sid, r) = (odd_sid, odd_r),
            _ => {}
        }
        self.plain("station", &[place, sid, channel, 3, r]);
        self.plain("show", &[place]);
    }

    /// A record with one field at or past its limit, then calls that take it.
    pub fn odd_record(&mut self) {
        let place = self.random.between(0, 39);
        let end = self.random.moment();
        let state = self.random.between(0, 3);
        let mut fields = [
            self.random.unicast(),
            self.random.between(0, 1),
            self.random.between(0, 1),
            self.random.request_length(),
            self.random.between(0, 1),
            end,
            state,
            self.random.size(),
            self.random.between(0, 15),
            self.random.between(0, 40),
            self.random.between(0, 16),
            self.random.around(end, 30),
        ];
        self.spoil(&mut fields);
        self.record_call(place, fields);
        for _ in 0..2 {
            match self.random.between(0, 2) {
                0 => self.offer_call(place),
                _ => self.hear_step(place),
            }
        }
    }

    fn spoil(&mut self, fields: &mut [u32; 12]) {
        for _ in 0..self.random.pick(&[1, 1, 2]) {
            let random = &mut self.random;
            match random.between(0, 7) {
                0 => fields[0] = random.pick(&[0, 0x2000, 0x3FFF, 0x10001, u32::MAX]),
                1 => fields[3] = random.pick(&[0, 17, 257, u32::MAX]),
                2 => fields[7] = random.bad_size(),
                3 => fields[8] = random.pick(&[15, 16, 256, 65_536, u32::MAX]),
                4 => fields[9] = random.pick(&[32_767, 32_768, 65_536, u32::MAX]),
                5 => fields[10] = random.pick(&[16, 17, 256, 65_536, u32::MAX]),
                6 => (fields[8], fields[9]) = (0, random.between(1, 9)),
                _ => {}
            }
        }
    }

    pub fn record_call(&mut self, place: u32, fields: [u32; 12]) {
        let mut numbers = vec![place];
        numbers.extend(fields);
        self.plain("record", &numbers);
    }

    pub fn offer_call(&mut self, place: u32) {
        let size = match self.random.chance(12) {
            true => self.random.bad_size(),
            false => self.random.size(),
        };
        self.plain("offer", &[place, size]);
    }

    /// A station of its own and a run of MAPs, each after the one before.
    pub fn station_story(&mut self) {
        let place = self.random.between(0, 39);
        let aim = Aim::any(&mut self.random);
        let channel = self.random.between(0, 3);
        let count = self.random.between(0, 3);
        self.plain("station", &[place, aim.sid, channel, count, aim.r]);
        for _ in 0..self.random.between(3, 22) {
            let idle = self.station(place).state == State::Idle;
            if self.random.chance(if idle { 70 } else { 4 }) {
                self.offer_call(place);
            }
            self.hear_step(place);
        }
    }

    pub fn station(&self, place: u32) -> Station {
        self.session.stations[place as usize]
    }

    /// One MAP made for what the station's state is now.
    pub fn hear_step(&mut self, place: u32) {
        let station = self.station(place);
        let map = self.map_for(&station);
        let present = self.present_for(map.start);
        let draw = self.random.draw();
        let bytes = match self.random.chance(12) {
            true => {
                let kind = self.deck("heard damage", KINDS);
                damaged(&mut self.random, map, &[kind])
            }
            false => lay_out(&map),
        };
        self.with_bytes("hear", &[place, present, draw], &bytes);
    }

    pub fn map_for(&mut self, station: &Station) -> Map {
        let layout = self.layout_for(station);
        let random = &mut self.random;
        let start = start_for(random, station);
        let mut map = maps::around(random, layout);
        map.start = start;
        if random.chance(40) {
            map.backoffs = random.pick(&[[0, 0, 3, 5], [0, 1, 2, 4], [0, 0, 4, 4], [2, 2, 5, 9]]);
        }
        map.ack = ack_for(random, station, start);
        map.channel = station.channel;
        map.count = station.count;
        let other = random.pick(&[1, 0x80]);
        match random.between(0, 39) {
            0 => map.channel ^= other,
            1 => map.count ^= other,
            2 => (map.channel, map.count) = (map.channel ^ other, map.count ^ other),
            _ => {}
        }
        map
    }

    fn layout_for(&mut self, station: &Station) -> Layout {
        let aim = Aim {
            sid: station.sid.clamp(1, 0x1FFF),
            r: station.r.clamp(1, 16),
        };
        let roomy = self.roomy();
        let random = &mut self.random;
        match station.state {
            _ if roomy && random.chance(1) => maps::of_count(random, aim, MOST_ELEMENTS),
            _ if random.chance(4) => maps::longest(random, aim),
            State::Wanting { .. } | State::Deferring { .. } if random.chance(15) => {
                own_requests(random, aim)
            }
            State::Wanting { .. } if random.chance(30) => about_left(random, aim, 3),
            State::Deferring { left, .. } if random.chance(60) => about_left(random, aim, left),
            State::Waiting { .. } if random.chance(40) => pending(random, aim),
            _ => maps::small(random, aim),
        }
    }

    fn present_for(&mut self, start: u32) -> u32 {
        let back = match self.random.between(0, 29) {
            0 | 1 => 0,
            2 => HALF,
            3 => HALF - 1,
            4 => u32::MAX,
            5..=10 => self.random.between(2, 1_000),
            _ => 1,
        };
        start.wrapping_sub(back)
    }

    /// Loss after loss, up to the one that drops the packet.
    pub fn loss_story(&mut self) {
        let place = self.random.between(0, 39);
        let aim = Aim::any(&mut self.random);
        self.plain("station", &[place, aim.sid, 1, 2, aim.r]);
        if self.random.chance(70) {
            let end = self.random.moment();
            let retries = self.random.between(12, 16);
            let exponent = self.random.between(0, 4);
            let tail = [3, self.random.size(), exponent, 0, retries, end];
            let mut fields = [aim.sid, 1, 2, aim.r, 1, end, 0, 0, 0, 0, 0, 0];
            fields[6..].copy_from_slice(&tail);
            self.record_call(place, fields);
        } else {
            self.plain("offer", &[place, 9]);
        }
        let backoffs = self
            .random
            .pick(&[[0, 0, 2, 4], [1, 2, 0, 3], [0, 0, 3, 3]]);
        for _ in 0..20 {
            if self.station(place).state == State::Idle {
                return;
            }
            self.loss_step(place, aim, backoffs);
        }
    }

    fn loss_step(&mut self, place: u32, aim: Aim, backoffs: [u8; 4]) {
        let station = self.station(place);
        let start = station.end.unwrap_or(5_000);
        let ack = match station.state {
            State::Waiting { time, .. } => {
                let more = self.random.pick(&[0, 1, 1, 1, 1, 1, 2, 100]);
                time.wrapping_add(more)
            }
            _ => start,
        };
        let mut layout = Layout::new();
        let opportunities = self.random.pick(&[7, 16, 16, 16]);
        layout.interval(BROADCAST, REQUEST, opportunities * aim.r);
        layout.close();
        let map = Map {
            channel: 1,
            count: 2,
            start,
            ack,
            backoffs,
            elements: layout.elements,
        };
        let draw = self.random.draw();
        let numbers = [place, start.wrapping_sub(1), draw];
        self.with_bytes("hear", &numbers, &lay_out(&map));
    }
}

fn start_for(random: &mut Random, station: &Station) -> u32 {
    let end = match station.end {
        Some(end) => end,
        None => return random.moment(),
    };
    let ahead = match random.between(0, 39) {
        0 => HALF,
        1 => HALF - 1,
        2 => u32::MAX,
        3 => random.any(),
        4..=9 => random.between(1, 300),
        _ => 0,
    };
    end.wrapping_add(ahead)
}

fn ack_for(random: &mut Random, station: &Station, start: u32) -> u32 {
    let back = random.between(0, 60);
    match station.state {
        State::Waiting { time, .. } => {
            let more = random.pick(&[0, 0, 1, 1, 1, back, u32::MAX, HALF - 1, HALF]);
            time.wrapping_add(more)
        }
        _ => start.wrapping_sub(back),
    }
}

/// Contention about as long as the station still defers.
fn about_left(random: &mut Random, aim: Aim, left: u32) -> Layout {
    let mut layout = Layout::new();
    let passed = random.between(0, left.min(20));
    let rest = left.min(4_000) - passed;
    let more = random.pick(&[0, 1, 1, 2]);
    layout.interval(BROADCAST, REQUEST, passed * aim.r);
    if random.chance(30) {
        maps::add_interval(random, &mut layout, aim);
    }
    let n = aim.r.min(14) + random.between(0, 14 - aim.r.min(14));
    match random.between(0, 9) {
        0..=3 => layout.interval(BROADCAST, REQUEST, (rest + more) * aim.r),
        4..=6 => layout.interval(0x3FF0 + n, REQUEST_DATA, (rest + more) * n),
        _ => {}
    }
    layout.close();
    maps::add_after(random, &mut layout, aim);
    layout
}

/// Requests to the own SID, too short or not, contention before and between.
fn own_requests(random: &mut Random, aim: Aim) -> Layout {
    let mut layout = Layout::new();
    for _ in 0..random.between(1, 3) {
        layout.interval(BROADCAST, REQUEST, random.pick(&[0, 1, 4]) * aim.r);
        let length = random.pick(&[aim.r - 1, aim.r, aim.r + 1, 2 * aim.r]);
        layout.interval(aim.sid, REQUEST, length);
    }
    layout.close();
    maps::add_after(random, &mut layout, aim);
    layout
}

/// A pending for the SID, with or without a grant beside it.
fn pending(random: &mut Random, aim: Aim) -> Layout {
    let mut layout = Layout::new();
    layout.interval(BROADCAST, REQUEST, random.between(1, 20));
    if random.chance(30) {
        for _ in 0..random.between(1, 3) {
            layout.interval(aim.sid, LONG_GRANT, random.size());
        }
    }
    layout.close();
    let other = random.unicast();
    layout.after(other, ACKNOWLEDGE);
    let usage = random.pick(&[SHORT_GRANT, LONG_GRANT, ACKNOWLEDGE]);
    layout.after(aim.sid, usage);
    layout
}
