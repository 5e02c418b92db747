//! Calls on a message alone: read, after, grant, write.

use super::damage::{damage_fields, damaged, FIELD_KINDS, KINDS};
use super::maps::{self, Aim};
use super::Generator;
use crate::message::*;

impl Generator {
    /// A valid MAP, mostly small, and the SID it is aimed at.
    pub fn valid_map(&mut self) -> (Map, Aim) {
        let aim = Aim::any(&mut self.random);
        let roomy = self.roomy();
        let random = &mut self.random;
        let layout = match random.between(0, 39) {
            0..=1 if roomy => maps::of_count(random, aim, MOST_ELEMENTS),
            2 if roomy => {
                let n = random.between(20, 239) as usize;
                maps::of_count(random, aim, n)
            }
            3..=5 => maps::longest(random, aim),
            6 => maps::of_count(random, aim, 2),
            _ => maps::small(random, aim),
        };
        (maps::around(random, layout), aim)
    }

    pub fn valid_message(&mut self) {
        let (map, aim) = self.valid_map();
        let mut bytes = lay_out(&map);
        if self.random.chance(30) {
            bytes[3] = self.random.pick(&[1, 0x80, 0xFF]);
        }
        self.ask(&bytes, aim, &map);
    }

    /// One or two faults, told apart by all the calls that read.
    pub fn damaged_message(&mut self) {
        let (map, aim) = self.valid_map();
        let kind = self.deck("damage", KINDS);
        let mut kinds = vec![kind];
        if self.random.chance(45) {
            kinds.push(self.random.below(KINDS));
        }
        let bytes = damaged(&mut self.random, map.clone(), &kinds);
        self.ask(&bytes, aim, &map);
    }

    /// A long message is asked about once only.
    fn ask(&mut self, bytes: &[u8], aim: Aim, map: &Map) {
        let which = if bytes.len() > 100 {
            self.deck("ask long", 3)
        } else {
            self.deck("ask", 4)
        };
        if which == 0 || which == 3 {
            self.with_bytes("read", &[], bytes);
        }
        if which == 1 || which == 3 {
            self.with_bytes("after", &[], bytes);
        }
        if which == 2 || which == 3 {
            let sid = self.grant_sid(aim, map);
            let k = self
                .random
                .pick(&[0, 0, 0, 0, 1, 1, 2, 256, 65_536, u32::MAX]);
            self.with_bytes("grant", &[sid, k], bytes);
        }
    }

    fn grant_sid(&mut self, aim: Aim, map: &Map) -> u32 {
        let intervals = map.intervals().into_iter();
        let grants = intervals.filter(|interval| interval.element.is_grant());
        let granted: Vec<u32> = grants.map(|grant| grant.element.sid).collect();
        if granted.is_empty() || self.random.chance(30) {
            let beyond = aim.sid + 0x10000;
            return self
                .random
                .pick(&[aim.sid, 0, 0x2000, BROADCAST, beyond, u32::MAX]);
        }
        self.random.pick(&granted)
    }

    pub fn written_message(&mut self) {
        let (mut map, _) = self.valid_map();
        match self.deck("write", 12) {
            0 => map.elements.clear(),
            1 => self.many_elements(&mut map),
            2..=6 => {
                let kind = self.deck("write damage", FIELD_KINDS);
                damage_fields(&mut self.random, &mut map, kind);
                if self.random.chance(30) {
                    let second = self.random.below(FIELD_KINDS);
                    damage_fields(&mut self.random, &mut map, second);
                }
            }
            7 => self.too_wide(&mut map),
            _ => {}
        }
        let size = 16 + 4 * map.elements.len() as u32;
        let any = self.random.between(0, 60);
        let room = self
            .random
            .pick(&[size, size, size, size - 1, size + 3, 0, any]);
        self.write_call(room.min(1_000), &map);
    }

    /// 240 or 241 elements where there is room for so long a line.
    fn many_elements(&mut self, map: &mut Map) {
        if !self.roomy() {
            return;
        }
        let aim = Aim::any(&mut self.random);
        let n = self.random.pick(&[239, 240, 241, 241]);
        map.elements = maps::of_count(&mut self.random, aim, n).elements;
    }

    /// A value that doesn't fit its bits but would pass if it were cut.
    fn too_wide(&mut self, map: &mut Map) {
        let at = self.random.below(map.elements.len());
        let element = &mut map.elements[at];
        match self.random.between(0, 2) {
            0 => element.sid += self.random.pick(&[0x4000, 0x10000, 0x8000_0000]),
            1 => element.usage += self.random.pick(&[16, 256, 0x10000]),
            _ => element.offset += self.random.pick(&[0x4000, 0x10000, 0x8000_0000]),
        }
    }

    pub fn write_call(&mut self, room: u32, map: &Map) {
        let mut numbers = vec![room, u32::from(map.channel), u32::from(map.count)];
        numbers.extend([map.start, map.ack]);
        numbers.extend(map.backoffs.map(u32::from));
        for element in &map.elements {
            numbers.extend([element.sid, element.usage, element.offset]);
        }
        self.plain("write", &numbers);
    }
}
