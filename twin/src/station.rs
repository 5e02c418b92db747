//! A modem's station for one SID (document 01, "Opportunities" and "The
//! station").

use crate::message::{is_unicast, read, Map, BROADCAST, REQUEST, REQUEST_DATA};
use crate::refusal::*;
use crate::time::{ahead, earlier, later};

pub const MOST_RETRIES: u32 = 16;
pub const MOST_LEFT: u32 = 32_767;
pub const MOST_EXPONENT: u32 = 15;
pub const MOST_RECORDS: usize = 32;

#[derive(Debug, Clone, Copy, PartialEq, Eq)]
pub enum State {
    Idle,
    Wanting {
        size: u32,
    },
    Deferring {
        size: u32,
        exponent: u32,
        left: u32,
        retries: u32,
    },
    Waiting {
        size: u32,
        exponent: u32,
        retries: u32,
        time: u32,
    },
}

#[derive(Debug, Clone, Copy, PartialEq, Eq)]
pub struct Station {
    pub sid: u32,
    pub channel: u8,
    pub count: u8,
    pub r: u32,
    /// The end of the last accepted MAP, once there was one.
    pub end: Option<u32>,
    pub state: State,
}

/// What an accepted hearing answers.
#[derive(Debug, Clone, Copy, PartialEq, Eq)]
pub struct Heard {
    pub bursts: u32,
    pub sent: Option<u32>,
}

pub fn is_size(size: u32) -> bool {
    (1..=255).contains(&size)
}

impl Station {
    pub fn new(sid: u32, channel: u8, count: u8, r: u32) -> Result<Station, Refusal> {
        let station = Station {
            sid,
            channel,
            count,
            r,
            end: None,
            state: State::Idle,
        };
        station.check()?;
        Ok(station)
    }

    /// The check of a record handed in: 6, then 17 for r and for those
    /// fields that its state has.
    fn check(&self) -> Result<(), Refusal> {
        if !is_unicast(self.sid) {
            return refuse(SID);
        }
        let state_fits = match self.state {
            State::Idle => true,
            State::Wanting { size } => is_size(size),
            State::Deferring {
                size,
                exponent,
                left,
                retries,
            } => is_size(size) && left <= MOST_LEFT && counts_fit(exponent, retries),
            State::Waiting {
                size,
                exponent,
                retries,
                ..
            } => is_size(size) && counts_fit(exponent, retries),
        };
        if !(1..=16).contains(&self.r) || !state_fits {
            return refuse(SIZE);
        }
        Ok(())
    }

    pub fn offer(&mut self, size: u32) -> Result<(), Refusal> {
        self.check()?;
        if self.state != State::Idle {
            return refuse(BUSY);
        }
        if !is_size(size) {
            return refuse(SIZE);
        }
        self.state = State::Wanting { size };
        Ok(())
    }

    pub fn hear(&mut self, bytes: &[u8], present: u32, draw: u16) -> Result<Heard, Refusal> {
        self.check()?;
        let map = read(bytes)?;
        self.admit(&map, present)?;
        self.end = Some(map.end());
        let bursts = map.grants(self.sid).len() as u32;
        if bursts > 0 {
            self.served(&map);
            return Ok(Heard { bursts, sent: None });
        }
        self.settle(&map, u32::from(draw));
        let sent = self.contend(&map);
        Ok(Heard { bursts, sent })
    }

    fn admit(&self, map: &Map, present: u32) -> Result<(), Refusal> {
        if map.channel != self.channel {
            return refuse(CHANNEL);
        }
        if map.count != self.count {
            return refuse(DESCRIPTION);
        }
        let stale = |end| ahead(end, map.start) >= 1 << 31;
        if self.end.map_or(false, stale) {
            return refuse(STALE);
        }
        if !earlier(present, map.start) {
            return refuse(LATE);
        }
        Ok(())
    }

    /// Step 1, once there is a burst.
    fn served(&mut self, map: &Map) {
        let waiting = matches!(self.state, State::Waiting { .. });
        if !(waiting && map.has_pending(self.sid)) {
            self.state = State::Idle;
        }
    }

    /// Steps 2 and 3.
    fn settle(&mut self, map: &Map, draw: u32) {
        let [_, _, data_start, data_end] = map.backoffs.map(u32::from);
        match self.state {
            State::Waiting {
                size,
                exponent,
                retries,
                time,
            } if !map.has_pending(self.sid) && earlier(time, map.ack) => {
                let exponent = exponent_after_loss(exponent, data_end);
                self.state = deferring(size, exponent, retries + 1, draw);
            }
            State::Wanting { size } => self.state = deferring(size, data_start, 0, draw),
            _ => {}
        }
    }

    /// Step 4: the first mini-slot of the request sent, if any.
    fn contend(&mut self, map: &Map) -> Option<u32> {
        let (size, exponent, left, retries) = match self.state {
            State::Deferring {
                size,
                exponent,
                left,
                retries,
            } => (size, exponent, left, retries),
            _ => return None,
        };
        let contention = contention(map, self.r);
        let own = own_request(map, self.sid, self.r);
        let sent = own.or_else(|| contention.get(left as usize).copied());
        self.state = match sent {
            Some(time) => State::Waiting {
                size,
                exponent,
                retries,
                time,
            },
            None => State::Deferring {
                size,
                exponent,
                left: left - contention.len() as u32,
                retries,
            },
        };
        sent
    }
}

fn counts_fit(exponent: u32, retries: u32) -> bool {
    exponent <= MOST_EXPONENT && retries <= MOST_RETRIES
}

/// Document 01 decides; the source also raises to the start (READINGS U3).
fn exponent_after_loss(exponent: u32, data_end: u32) -> u32 {
    data_end.min(exponent + 1)
}

/// Deferring with a fresh draw, or Idle where retries went above the limit.
fn deferring(size: u32, exponent: u32, retries: u32, draw: u32) -> State {
    if retries > MOST_RETRIES {
        return State::Idle;
    }
    State::Deferring {
        size,
        exponent,
        left: draw % 2u32.pow(exponent),
        retries,
    }
}

/// The first mini-slot of every contention opportunity, in order.
pub fn contention(map: &Map, r: u32) -> Vec<u32> {
    let mut firsts = Vec::new();
    for interval in map.intervals() {
        let element = interval.element;
        let step = match (element.usage, element.sid) {
            (REQUEST, BROADCAST) => r,
            (REQUEST_DATA, 0x3FF1..=0x3FFE) => element.sid - 0x3FF0,
            _ => continue,
        };
        if step < r {
            continue;
        }
        for i in 0..interval.length / step {
            firsts.push(later(map.start, element.offset + i * step));
        }
    }
    firsts
}

/// The first usable Request to the station's own SID.
fn own_request(map: &Map, sid: u32, r: u32) -> Option<u32> {
    let intervals = map.intervals();
    let usable = intervals.iter().find(|interval| {
        let element = interval.element;
        element.usage == REQUEST && element.sid == sid && interval.length >= r
    })?;
    Some(later(map.start, usable.element.offset))
}

/// A table hears one MAP. The answer is 17 if the table itself is refused,
/// else 0, and each record's place takes its refusal number, 0 if heard.
pub fn hear_table(
    records: &mut [Station],
    bytes: &[u8],
    present: u32,
    draws: &[u16],
    places: &mut [u32],
) -> u32 {
    let n = records.len();
    if n > MOST_RECORDS || draws.len() < n || places.len() < n {
        return SIZE;
    }
    for (index, record) in records.iter_mut().enumerate() {
        places[index] = match record.hear(bytes, present, draws[index]) {
            Ok(_) => 0,
            Err(refusal) => refusal.number,
        };
    }
    0
}
