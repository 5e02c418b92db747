//! Calls on times: begins, earlier, span.

use super::Generator;

const HALF: u32 = 1 << 31;

impl Generator {
    pub fn time_calls(&mut self) {
        self.begins_call();
        self.earlier_call();
        self.span_call();
    }

    fn begins_call(&mut self) {
        let slot = self.random.moment();
        let m = match self.random.between(0, 3) {
            0 => self.random.pick(&[0, 8, 9, 32, 257, 65_537, u32::MAX]),
            _ => self.random.between(1, 7),
        };
        self.plain("begins", &[slot, m]);
    }

    fn earlier_call(&mut self) {
        let a = self.random.moment();
        let any = self.random.any();
        let apart = self
            .random
            .pick(&[0, 1, HALF - 1, HALF, HALF + 1, u32::MAX, any]);
        self.plain("earlier", &[a, a.wrapping_add(apart)]);
    }

    fn span_call(&mut self) {
        let from = self.random.moment();
        let far = self.roomy() && self.random.chance(8);
        let pairs = match far {
            true => self.random.pick(&[60, 300]),
            false => self.random.pick(&[0, 1, 2, 2, 3, 3, 4, 6]),
        };
        let whole = self.deck("span", 4);
        let mut numbers = Vec::new();
        for i in 0..pairs {
            // Falling starts put E at the end of the row.
            let [start, length] = self.span_pair(from, whole);
            let fall = if far && whole < 2 { 12_000 * i } else { 0 };
            numbers.extend([start.wrapping_sub(fall), length]);
        }
        self.plain("span", &numbers);
    }

    /// Starts close together, at the edge of half the circle, or anywhere.
    fn span_pair(&mut self, from: u32, whole: usize) -> [u32; 2] {
        let any = self.random.between(0, 4_096);
        let length = self.random.pick(&[0, 1, 30, 4_096, any]);
        let wide = self.random.pick(&[4_097, 65_566, u32::MAX]);
        let length = if self.random.chance(8) { wide } else { length };
        let start = match whole {
            0 | 1 => self.random.around(from, 5_000),
            2 => {
                let edge = from.wrapping_add(HALF).wrapping_sub(length);
                let past = edge.wrapping_add(1);
                self.random.pick(&[from, edge.wrapping_sub(1), edge, past])
            }
            _ => self.random.any(),
        };
        [start, length]
    }
}
