//! A whole channel: stations hear what a headend issues, and the headend
//! takes what they request.

use super::Generator;
use crate::line;
use crate::station::State;

impl Generator {
    pub fn channel_story(&mut self) {
        let place = self.random.between(0, 3);
        let next = self.random.moment();
        let backoffs = self.random.backoffs();
        self.headend_call(place, next, 1, backoffs);
        let count = self.random.pick(&[1, 2, 3, 4]);
        let first = self.random.between(0, 40 - count);
        for i in 0..count {
            let r = self.random.pick(&[1, 1, 2, 4]);
            self.plain("station", &[first + i, 10 + i, 1, 2, r]);
        }
        for _ in 0..self.random.between(4, 12) {
            self.round(place, first, count);
        }
    }

    /// Offers, one MAP issued and heard, and the requests it brought.
    fn round(&mut self, place: u32, first: u32, count: u32) {
        for station in first..first + count {
            let idle = self.station(station).state == State::Idle;
            if idle && self.random.chance(60) {
                self.offer_call(station);
            }
        }
        let start = self.headend(place).next;
        let bytes = match self.issued(place) {
            Some(bytes) => bytes,
            None => return,
        };
        let present = start.wrapping_sub(self.random.between(1, 3));
        for station in first..first + count {
            let draw = self.random.draw();
            self.with_bytes("hear", &[station, present, draw], &bytes);
        }
        for station in first..first + count {
            self.deliver(place, station, start);
        }
    }

    /// The bytes of the MAP that the headend issued, if it did.
    fn issued(&mut self, place: u32) -> Option<Vec<u8>> {
        let headend = self.headend(place);
        let room = 24 + 4 * headend.held.min(64);
        let (old, next) = (headend.ack, headend.next);
        let behind = self.random.between(0, next.wrapping_sub(old).min(30));
        let back = self.random.pick(&[0, 0, behind]);
        let c = self.random.pick(&[4, 8, 20, 60]);
        let budget = self.random.pick(&[c, c + 10, c + 100, c + 255, 4_096]);
        let numbers = [place, next.wrapping_sub(back), c, budget, room];
        let answer = self.plain("issue", &numbers);
        let token = answer.strip_prefix("issued ")?.split(' ').nth(1)?;
        line::parse(format!("read {token}").as_bytes())?.hex
    }

    /// A request sent in this MAP reaches the headend, or is lost.
    fn deliver(&mut self, place: u32, station: u32, start: u32) {
        let record = self.station(station);
        if let State::Waiting { size, time, .. } = record.state {
            let sent_now = time.wrapping_sub(start) < 4_096;
            if sent_now && self.random.chance(75) {
                self.plain("request", &[place, record.sid, size, time]);
            }
        }
    }
}
