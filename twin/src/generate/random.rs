//! A small generator of numbers (splitmix64), and choices made with it.

pub struct Random(u64);

impl Random {
    pub fn new(seed: u64) -> Random {
        Random(seed)
    }

    fn next(&mut self) -> u64 {
        self.0 = self.0.wrapping_add(0x9E37_79B9_7F4A_7C15);
        let mut z = self.0;
        z = (z ^ z >> 30).wrapping_mul(0xBF58_476D_1CE4_E5B9);
        z = (z ^ z >> 27).wrapping_mul(0x94D0_49BB_1331_11EB);
        z ^ z >> 31
    }

    pub fn any(&mut self) -> u32 {
        (self.next() >> 32) as u32
    }

    /// Both ends included.
    pub fn between(&mut self, low: u32, high: u32) -> u32 {
        let choices = u64::from(high) - u64::from(low) + 1;
        low + (self.next() % choices) as u32
    }

    pub fn below(&mut self, choices: usize) -> usize {
        (self.next() % choices as u64) as usize
    }

    pub fn chance(&mut self, percent: u32) -> bool {
        self.between(1, 100) <= percent
    }

    pub fn pick<T: Copy>(&mut self, from: &[T]) -> T {
        from[self.below(from.len())]
    }

    /// A mini-slot count, often close to where counts roll over.
    pub fn moment(&mut self) -> u32 {
        if self.chance(25) {
            return self.any();
        }
        let near = self.pick(&[0, 0, 0, 1 << 31, 1_000]);
        self.around(near, 120)
    }

    pub fn around(&mut self, middle: u32, far: u32) -> u32 {
        middle
            .wrapping_sub(far)
            .wrapping_add(self.between(0, 2 * far))
    }

    pub fn unicast(&mut self) -> u32 {
        let inside = self.between(1, 0x1FFF);
        self.pick(&[1, 2, 5, 6, 7, 0x1000, 0x1FFE, 0x1FFF, inside])
    }

    pub fn multicast(&mut self) -> u32 {
        let inside = self.between(0x2000, 0x3DFF);
        self.pick(&[0x2000, 0x2001, 0x3DFE, 0x3DFF, inside])
    }

    pub fn size(&mut self) -> u32 {
        let inside = self.between(1, 255);
        let small = self.between(1, 20);
        self.pick(&[1, 2, 255, small, small, inside])
    }

    pub fn bad_size(&mut self) -> u32 {
        self.pick(&[0, 256, 257, 65_536, 65_537, u32::MAX])
    }

    pub fn request_length(&mut self) -> u32 {
        let inside = self.between(1, 16);
        self.pick(&[1, 1, 1, 2, 3, 4, 16, inside])
    }

    pub fn draw(&mut self) -> u32 {
        let inside = self.between(0, 65_535);
        let small = self.between(0, 9);
        self.pick(&[0, 1, 65_535, 32_767, 32_768, small, small, inside, inside])
    }

    /// Four backoffs that are allowed, mostly small ones.
    pub fn backoffs(&mut self) -> [u8; 4] {
        let [a, b] = self.backoff_pair();
        let [c, d] = self.backoff_pair();
        [a, b, c, d]
    }

    fn backoff_pair(&mut self) -> [u8; 2] {
        let start = self.between(0, 15) as u8;
        let end = self.between(u32::from(start), 15) as u8;
        let small = self.between(0, 3) as u8;
        self.pick(&[
            [0, 0],
            [15, 15],
            [0, 15],
            [2, 4],
            [0, small],
            [1, 3],
            [small, small],
            [small, small + 1],
            [small, small + 2],
            [start, end],
        ])
    }
}

/// Choices handed out in random order, each once before any comes again.
pub struct Deck {
    left: Vec<usize>,
}

impl Deck {
    pub fn new() -> Deck {
        Deck { left: Vec::new() }
    }

    pub fn draw(&mut self, random: &mut Random, choices: usize) -> usize {
        if self.left.is_empty() {
            self.left = (0..choices).collect();
        }
        let at = random.below(self.left.len());
        self.left.swap_remove(at)
    }
}

impl Default for Deck {
    fn default() -> Deck {
        Deck::new()
    }
}
