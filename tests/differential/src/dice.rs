//! Chance that is the same on every machine: splitmix64.

pub struct Dice(u64);

impl Dice {
    pub fn new(seed: u64, run: u64) -> Self {
        let mut dice = Dice(seed.wrapping_mul(0x9e37_79b9_7f4a_7c15) ^ run.wrapping_mul(0xd1b5_4a32_d192_ed03));
        dice.next();
        dice
    }

    fn next(&mut self) -> u64 {
        self.0 = self.0.wrapping_add(0x9e37_79b9_7f4a_7c15);
        let z = (self.0 ^ (self.0 >> 30)).wrapping_mul(0xbf58_476d_1ce4_e5b9);
        let z = (z ^ (z >> 27)).wrapping_mul(0x94d0_49bb_1331_11eb);
        z ^ (z >> 31)
    }

    pub fn word(&mut self) -> u32 {
        (self.next() >> 32) as u32
    }

    /// 0 to `count` - 1.
    pub fn below(&mut self, count: u32) -> u32 {
        ((u64::from(self.word()) * u64::from(count)) >> 32) as u32
    }

    /// `low` to `high`, both included.
    pub fn between(&mut self, low: u32, high: u32) -> u32 {
        low + self.below(high - low + 1)
    }

    pub fn chance(&mut self, percent: u32) -> bool {
        self.below(100) < percent
    }

    pub fn pick<T: Clone>(&mut self, of: &[T]) -> T {
        of[self.below(of.len() as u32) as usize].clone()
    }

    /// A number that some rule of document 01 turns on, or one beside it.
    pub fn edge(&mut self, length: u32) -> u32 {
        let small = [0, 1, 2, 3, 4, 5, 7, 8, 9, 15, 16, 17, 31, 32, 33, 40, 41, 62, 63, 64, 65];
        let large = [1022, 1023, 1024, 65536, 65537, 262_142, 262_143, 262_144, u32::MAX - 31, u32::MAX];
        match self.below(8) {
            0..=2 => self.pick(&small),
            3 => self.pick(&large),
            4 | 5 => length.wrapping_add(self.below(4)).wrapping_sub(self.pick(&[2, 18, 33, 34, 35, 40, 50])),
            6 => self.below(length.max(1)),
            _ => 65536 + self.below(64),
        }
    }
}
