//! SIDs at the edges of their ranges, and lines at the edges of theirs.

use super::Generator;
use crate::message::*;

/// For each use the last SIDs inside and the first ones outside.
const SIDS: [(u32, &[u32]); 8] = [
    (
        REQUEST,
        &[
            0, 1, 0x1FFF, 0x2000, 0x3DFF, 0x3E00, 0x3E01, 0x3EFF, 0x3F00, 0x3FFE, 0x3FFF,
        ],
    ),
    (
        REQUEST_DATA,
        &[
            0, 0x1FFF, 0x2000, 0x3DFF, 0x3E00, 0x3FF0, 0x3FF1, 0x3FFE, 0x3FFF,
        ],
    ),
    (
        INITIAL_MAINTENANCE,
        &[0, 0x1FFF, 0x2000, 0x3DFF, 0x3E00, 0x3FFE, 0x3FFF],
    ),
    (STATION_MAINTENANCE, &[0, 1, 0x1FFF, 0x2000, 0x3FFF]),
    (SHORT_GRANT, &[0, 1, 0x1FFF, 0x2000, 0x3FFF]),
    (LONG_GRANT, &[0, 1, 0x1FFF, 0x2000, 0x3FFF]),
    (NULL_USE, &[0, 1, 0x3FFF]),
    (ACKNOWLEDGE, &[0, 1, 0x1FFF, 0x2000, 0x3FFF]),
];

/// Each just outside what its line takes, or just inside.
const LINES: [&str; 60] = [
    "earlier 4294967296 1",
    "earlier 4294967295 0",
    "earlier 9999999999 0",
    "earlier 00000000001 2",
    "earlier 0000000001 2",
    "begins 4294967297 1",
    "read xA5",
    "read xa",
    "record 0 5 1 2 1 2 0 0 0 0 0 0 0",
    "record 0 5 1 2 1 0 0 4 0 0 0 0 0",
    "record 0 5 256 2 1 0 0 0 0 0 0 0 0",
    "record 0 5 1 256 1 0 0 0 0 0 0 0 0",
    "record 40 5 1 2 1 0 0 0 0 0 0 0 0",
    "record 39 5 255 255 1 0 7 0 1 2 3 4 5",
    "record 39 5 0 0 1 1 7 1 1 2 3 4 5",
    "record 39 5 0 0 1 1 7 2 1 2 3 4 5",
    "record 39 5 0 0 1 1 7 3 1 2 3 4 5",
    "station 40 5 1 2 1",
    "station 39 5 255 255 1",
    "station 0 5 256 2 1",
    "station 0 5 1 256 1",
    "show 39",
    "show 40",
    "offer 40 1",
    "hear 40 0 0 x",
    "hear 0 0 65536 x",
    "hear 0 0 65535 x",
    "table 0 41 0 40 x",
    "table 39 1 0 1 0 x",
    "table 39 2 0 2 0 0 x",
    "table 40 0 0 0 x",
    "table 4294967295 1 0 1 0 x",
    "table 0 1 0 40 65535 x",
    "table 0 1 0 41 0 x",
    "table 0 1 0 1 65536 x",
    "table 0 1 0 1 0 0 0 0 0 0 0 0 0 0 0 0 0 0 0 0 0 0 0 0 0 0 0 0 0 0 0 0 0 0 0 0 0 0 0 0 0 0 0 0 x",
    "table 0 1 0 1 0 0 0 0 0 0 0 0 0 0 0 0 0 0 0 0 0 0 0 0 0 0 0 0 0 0 0 0 0 0 0 0 0 0 0 0 0 0 0 0 0 x",
    "headend 4 0 1 2 0 0 0 0 0",
    "headend 3 0 256 2 0 0 0 0 0",
    "headend 3 0 1 256 0 0 0 0 0",
    "headend 3 0 1 2 0 0 0 256 0",
    "headend 3 0 1 2 256 256 0 0 0",
    "headend 3 0 255 255 0 0 0 0 4294967295",
    "holding 4 0 0 1 2 0 0 0 0 0 0",
    "holding 3 0 0 1 2 0 0 0 256 0 0",
    "holding 3 0 0 1 2 0 0 0 255 0 1 1",
    "holding 3 0 0 1 2 0 0 0 255 0 4294967295",
    "held 3",
    "held 4",
    "held 3 0",
    "held 3 64",
    "held 3 65",
    "held 4 0",
    "held 3 1 1",
    "request 4 5 9 0",
    "issue 4 0 1 1 24",
    "issue 3 0 1 1 1000",
    "issue 3 0 1 1 1001",
    "write 1001 1 2 0 0 0 0 0 0 16383 1 0 0 7 1",
    "write 1000 1 2 0 0 0 0 0 256 16383 1 0 0 7 1",
];

/// R, STATE, SIZE, EXPONENT, LEFT, RETRIES at or past a limit.
const RECORDS: [[u32; 6]; 30] = [
    [0, 0, 0, 0, 0, 0],
    [1, 0, 0, 16, 32_768, 17],
    [16, 0, 256, 0, 0, 0],
    [17, 0, 0, 0, 0, 0],
    [0, 1, 9, 0, 0, 0],
    [17, 1, 9, 0, 0, 0],
    [1, 1, 0, 0, 0, 0],
    [1, 1, 255, 16, 32_768, 17],
    [1, 1, 256, 0, 0, 0],
    [0, 2, 9, 0, 0, 0],
    [16, 2, 9, 15, 32_767, 16],
    [17, 2, 9, 0, 0, 0],
    [1, 2, 0, 0, 0, 0],
    [1, 2, 255, 0, 9, 0],
    [1, 2, 256, 0, 0, 0],
    [1, 2, 9, 15, 0, 0],
    [1, 2, 9, 16, 0, 0],
    [1, 2, 9, 0, 32_767, 0],
    [1, 2, 9, 0, 32_768, 0],
    [1, 2, 9, 0, 0, 16],
    [1, 2, 9, 0, 0, 17],
    [0, 3, 9, 0, 0, 0],
    [17, 3, 9, 0, 0, 0],
    [1, 3, 0, 0, 0, 0],
    [1, 3, 255, 15, 32_768, 16],
    [1, 3, 256, 0, 0, 0],
    [1, 3, 9, 15, 0, 0],
    [1, 3, 9, 16, 0, 0],
    [1, 3, 9, 0, 0, 16],
    [1, 3, 9, 0, 0, 17],
];

impl Generator {
    /// A record at a limit, then a call that takes it.
    pub fn edge_record(&mut self) {
        let place = self.random.between(0, 39);
        let at = self.deck("edge record", RECORDS.len());
        let [r, state, size, exponent, left, retries] = RECORDS[at];
        let time = self.random.moment();
        let front = [5, 1, 2, r, 0, 0, state, size, exponent, left, retries, time];
        self.record_call(place, front);
        match self.random.between(0, 4) {
            0 => self.offer_call(place),
            _ => self.hear_step(place),
        }
    }

    pub fn edge_line(&mut self) {
        let at = self.deck("edge line", LINES.len());
        self.call(LINES[at].to_string());
    }

    /// One edge, in a MAP that is valid but for it.
    pub fn edge_sid(&mut self) {
        let pairs = SIDS
            .iter()
            .flat_map(|&(usage, sids)| sids.iter().map(move |&sid| (usage, sid)));
        let pairs: Vec<(u32, u32)> = pairs.collect();
        let (usage, sid) = pairs[self.deck("edge sid", pairs.len())];
        let (mut map, aim) = self.valid_map();
        if map.elements.len() > 20 {
            return;
        }
        let null = map.null();
        let at = match usage {
            NULL_USE => null,
            ACKNOWLEDGE => {
                let length = map.length();
                map.elements.push(Element::new(sid, usage, length));
                map.elements.len() - 1
            }
            _ => self.random.below(null),
        };
        map.elements[at].sid = sid;
        map.elements[at].usage = usage;
        match self.deck("edge call", 3) {
            0 => self.write_call(100, &map),
            1 => drop(self.with_bytes("read", &[], &lay_out(&map))),
            _ => drop(self.with_bytes("grant", &[aim.sid, 0], &lay_out(&map))),
        }
    }
}
