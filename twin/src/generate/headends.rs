//! Headends: set-up, requests and issues at every boundary.

use super::Generator;
use crate::headend::Headend;

impl Generator {
    pub fn headend(&self, place: u32) -> &Headend {
        &self.session.headends[place as usize]
    }

    pub fn set_up_headend(&mut self) {
        let place = self.random.between(0, 3);
        let next = self.random.moment();
        let mut backoffs = self.random.backoffs();
        if self.deck("set up headend", 2) == 0 {
            let at = self.random.below(4);
            backoffs[at] = self.random.pick(&[16, 255]);
            if self.random.chance(50) {
                backoffs = self
                    .random
                    .pick(&[[3, 2, 0, 0], [0, 0, 1, 0], [15, 14, 0, 1]]);
            }
        }
        self.headend_call(place, next, 3, backoffs);
        if self.random.chance(50) {
            self.request_call(place);
        }
        self.plain("held", &[place]);
    }

    /// The places, spare ones too, up to a number about that of those held.
    fn places_call(&mut self, place: u32) {
        let held = self.headend(place).held.min(64);
        let next = (held + 1).min(64);
        let places = self.random.pick(&[0, held, next, next, 64]);
        self.plain("held", &[place, places]);
    }

    pub fn headend_call(&mut self, place: u32, next: u32, channel: u32, backoffs: [u8; 4]) {
        let any = self.random.any();
        let short = self
            .random
            .pick(&[0, 1, 10, 10, 254, 255, 256, 65_546, any]);
        let [a, b, c, d] = backoffs.map(u32::from);
        self.plain("headend", &[place, next, channel, 2, a, b, c, d, short]);
    }

    /// Requests and issues in turn on a fresh headend.
    pub fn headend_story(&mut self) {
        let place = self.random.between(0, 3);
        let next = self.random.moment();
        let backoffs = self.random.backoffs();
        self.headend_call(place, next, 1, backoffs);
        for _ in 0..self.random.between(2, 6) {
            self.issue_call(place);
            for _ in 0..self.random.between(0, 5) {
                self.request_call(place);
            }
        }
        self.issue_call(place);
        self.places_call(place);
    }

    /// SIDs from a small pool, so that some are held already.
    pub fn request_call(&mut self, place: u32) {
        let (ack, next) = (self.headend(place).ack, self.headend(place).next);
        let random = &mut self.random;
        let sid = match random.chance(8) {
            true => random.pick(&[0, 0x2000, 0x3FFF, 0x10005, u32::MAX]),
            false => random.between(1, 12),
        };
        let size = match random.chance(8) {
            true => random.bad_size(),
            false => random.size(),
        };
        let inside = ack.wrapping_add(random.between(0, next.wrapping_sub(ack).max(1) - 1));
        let any = random.any();
        let before = ack.wrapping_sub(1);
        let last = next.wrapping_sub(1);
        let far = random.pick(&[ack, next]).wrapping_sub(1 << 31);
        let far = far.wrapping_add(random.pick(&[0, 1]));
        let first = random.pick(&[
            inside, inside, inside, inside, inside, ack, last, last, before, next, any, far,
        ]);
        self.plain("request", &[place, sid, size, first]);
    }

    pub fn issue_call(&mut self, place: u32) {
        let ack = self.ack_to_issue(place);
        let (c, budget) = self.plan_to_issue(place);
        let held = self.headend(place).held.min(64);
        let size = 24 + 4 * held;
        let any = self.random.between(0, 300);
        let choices = [size, size, size, size, size, 280, size + 1, size - 1, any];
        let room = self.random.pick(&choices);
        self.plain("issue", &[place, ack, c, budget, room]);
    }

    fn ack_to_issue(&mut self, place: u32) -> u32 {
        let (ack, next) = (self.headend(place).ack, self.headend(place).next);
        let inside = self.random.between(0, next.wrapping_sub(ack));
        let any = self.random.any();
        match self.random.between(0, 19) {
            0 => ack.wrapping_sub(1),
            1 => next.wrapping_add(1),
            2 => any,
            3..=7 => next,
            8..=11 => ack,
            _ => ack.wrapping_add(inside),
        }
    }

    /// c and a budget: at their limits, or about the sum of some requests.
    fn plan_to_issue(&mut self, place: u32) -> (u32, u32) {
        let requests = self.headend(place).requests();
        let sizes: Vec<u32> = requests.iter().map(|q| q.size.min(256)).collect();
        let random = &mut self.random;
        let c = random.pick(&[1, 2, 5, 20, 40]);
        let served = random.below(sizes.len() + 1);
        let sum = sizes[..served].iter().sum::<u32>();
        let exact = (c + sum).min(4_096);
        let filling = 4_096u32.saturating_sub(sum).max(1);
        match random.between(0, 27) {
            0 => (0, random.pick(&[0, 10, 4_096])),
            1 => (c, 4_097),
            2 => (c + 1, c),
            3 => random.pick(&[
                (4_097, 4_097),
                (u32::MAX, u32::MAX),
                (0, 4_097),
                (65_546, 100),
                (c, 65_636),
            ]),
            4 => (4_096, 4_096),
            5 => (c, c),
            6..=9 => (c, 4_096),
            10..=13 => (c, exact - 1),
            14..=16 => (c, (exact + 1).min(4_096)),
            17 => (filling, 4_096),
            18 => (filling.min(4_095) + 1, 4_096),
            _ => (c, exact),
        }
    }

    /// A headend handed in, close to full or with odd content.
    pub fn full_headend(&mut self) {
        let place = self.random.between(0, 3);
        let wanted = match self.deck("holding", 8) {
            0 => 64,
            1 => self.random.pick(&[62, 63]),
            2 => 65,
            _ => self.random.between(0, 6),
        };
        if wanted > 60 && self.script.len() > 170 * self.calls {
            return;
        }
        self.holding_call(place, wanted);
        for _ in 0..4 {
            self.late_request(place);
        }
        self.places_call(place);
        self.issue_call(place);
        self.request_call(place);
        self.places_call(place);
    }

    fn holding_call(&mut self, place: u32, wanted: u32) {
        let next = self.random.moment();
        let ack = next.wrapping_sub(50);
        let mut backoffs = self.random.backoffs().map(u32::from);
        let mut triples = Vec::new();
        for i in 0..wanted.min(64) {
            let first = ack.wrapping_add(i % 50);
            triples.extend([100 + i, self.random.size(), first]);
        }
        let mut held = wanted;
        match self.deck("holding odd", 8) {
            0 => backoffs[self.random.below(4)] = 16,
            1 if wanted > 0 => {
                let at = 3 * self.random.below(triples.len() / 3);
                triples[at] = self.random.pick(&[0, 0x2000, u32::MAX]);
            }
            2 if wanted > 0 => {
                let at = 3 * self.random.below(triples.len() / 3);
                triples[at + 1] = self.random.bad_size();
            }
            3 => held = self.random.pick(&[wanted / 2, 65, 256, 65_536, u32::MAX]),
            4 if wanted > 1 => triples[0] = triples[3],
            _ => {}
        }
        let short = self.random.pick(&[0, 10, 255]);
        let mut numbers = vec![place, next, ack, 1, 2];
        numbers.extend(backoffs);
        numbers.extend([short, held]);
        numbers.extend(triples);
        self.plain("holding", &numbers);
    }

    /// New SIDs up to one too many, or one that a full headend holds.
    fn late_request(&mut self, place: u32) {
        let first = self.headend(place).ack.wrapping_add(1);
        let sid = match self.random.chance(25) {
            true => 100,
            false => self.random.between(2_000, 8_000),
        };
        let size = self.random.size();
        self.plain("request", &[place, sid, size, first]);
    }
}
