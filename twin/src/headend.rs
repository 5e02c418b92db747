//! The headend: holds requests and issues MAPs (document 01, "The
//! headend").

use crate::message::*;
use crate::refusal::*;
use crate::station::is_size;
use crate::time::{ahead, earlier};

pub const MOST_HELD: usize = 64;

#[derive(Debug, Clone, Copy, PartialEq, Eq, Default)]
pub struct Request {
    pub sid: u32,
    pub size: u32,
    pub first: u32,
}

#[derive(Debug, Clone, PartialEq, Eq)]
pub struct Headend {
    pub next: u32,
    pub ack: u32,
    pub channel: u8,
    pub count: u8,
    pub backoffs: [u8; 4],
    pub short: u32,
    /// How many places hold a request; a record handed in may say any number.
    pub held: u32,
    pub places: [Request; MOST_HELD],
}

impl Headend {
    pub fn new(
        next: u32,
        channel: u8,
        count: u8,
        backoffs: [u8; 4],
        short: u32,
    ) -> Result<Headend, Refusal> {
        check_backoffs(&backoffs)?;
        Ok(Headend {
            next,
            ack: next,
            channel,
            count,
            backoffs,
            short,
            held: 0,
            places: [Request::default(); MOST_HELD],
        })
    }

    /// The first min(held, 64) places.
    pub fn requests(&self) -> &[Request] {
        &self.places[..MOST_HELD.min(self.held as usize)]
    }

    /// The check of a headend handed in: 4, 6, 17.
    fn check(&self) -> Result<(), Refusal> {
        check_backoffs(&self.backoffs)?;
        if self.requests().iter().any(|q| !is_unicast(q.sid)) {
            return refuse(SID);
        }
        let too_many = self.held as usize > MOST_HELD;
        if too_many || self.requests().iter().any(|q| !is_size(q.size)) {
            return refuse(SIZE);
        }
        Ok(())
    }

    /// Takes a request: 6, 17, 20, 21, 18, 19.
    pub fn request(&mut self, sid: u32, size: u32, first: u32) -> Result<(), Refusal> {
        self.check()?;
        if !is_unicast(sid) {
            return refuse(SID);
        }
        if !is_size(size) {
            return refuse(SIZE);
        }
        if earlier(first, self.ack) {
            return refuse(PASSED);
        }
        if !earlier(first, self.next) {
            return refuse(UNANNOUNCED);
        }
        if self.requests().iter().any(|q| q.sid == sid) {
            return refuse(HELD);
        }
        if self.held as usize == MOST_HELD {
            return refuse(FULL);
        }
        self.places[self.held as usize] = Request { sid, size, first };
        self.held += 1;
        Ok(())
    }

    /// Issues a MAP into the lent bytes and answers its byte count.
    pub fn issue(
        &mut self,
        ack: u32,
        c: u32,
        budget: u32,
        lent: &mut [u8],
    ) -> Result<usize, Refusal> {
        self.check()?;
        if ahead(self.ack, ack) > ahead(self.ack, self.next) {
            return refuse(ACK);
        }
        if c == 0 || budget > LONGEST_MAP || c > budget {
            return refuse(PLAN);
        }
        let granted = self.granted(c, budget);
        let map = self.plan(ack, c, granted);
        let bytes = lay_out(&map);
        if lent.len() < bytes.len() {
            return refuse(ROOM);
        }
        if read(&bytes).is_err() {
            return refuse(SELFCHECK);
        }
        lent[..bytes.len()].copy_from_slice(&bytes);
        self.ack = ack;
        self.next = map.end();
        self.release(granted);
        Ok(bytes.len())
    }

    /// How many requests, from the first, fit the budget after c.
    fn granted(&self, c: u32, budget: u32) -> usize {
        let mut used = c;
        for (index, request) in self.requests().iter().enumerate() {
            used += request.size;
            if used > budget {
                return index;
            }
        }
        self.requests().len()
    }

    fn plan(&self, ack: u32, c: u32, granted: usize) -> Map {
        let (served, rest) = self.requests().split_at(granted);
        let mut elements = vec![Element::new(BROADCAST, REQUEST, 0)];
        let mut at = c;
        for request in served {
            let short = request.size <= self.short;
            let usage = if short { SHORT_GRANT } else { LONG_GRANT };
            elements.push(Element::new(request.sid, usage, at));
            at += request.size;
        }
        elements.push(Element::new(0, NULL_USE, at));
        for request in rest {
            elements.push(Element::new(request.sid, SHORT_GRANT, at));
        }
        Map {
            channel: self.channel,
            count: self.count,
            start: self.next,
            ack,
            backoffs: self.backoffs,
            elements,
        }
    }

    /// Granted requests leave; the rest move down, and zeros fill up.
    fn release(&mut self, granted: usize) {
        let rest = self.requests()[granted..].to_vec();
        self.places = [Request::default(); MOST_HELD];
        self.places[..rest.len()].copy_from_slice(&rest);
        self.held = rest.len() as u32;
    }
}
