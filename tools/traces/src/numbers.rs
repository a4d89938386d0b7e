/// A generator of Steele, Lea and Flood (splitmix64): the numbers depend on the seed alone.
pub struct Numbers(pub u64);

// Where the setters change their mind, and what stands beside them.
const LIMITS: [f32; 8] = [0.25, 0.497, 0.158, 0.5, 0.0, 1.0, 0.01, 2.0];

const SPECIAL: [u32; 16] = [
    0x0000_0000, // 0
    0x8000_0000, // -0
    0x7F80_0000, // infinity
    0xFF80_0000,
    0x7FC0_0000, // NaN
    0xFFC0_0000,
    0x7F80_0001, // a signalling NaN
    0xFFFF_FFFF,
    0x0000_0001, // the least subnormal
    0x8000_0001,
    0x007F_FFFF, // the largest subnormal
    0x807F_FFFF,
    0x0080_0000, // the least normal
    0x8080_0000,
    0x7F7F_FFFF, // the largest
    0xFF7F_FFFF,
];

impl Numbers {
    pub fn next(&mut self) -> u64 {
        self.0 = self.0.wrapping_add(0x9E37_79B9_7F4A_7C15);
        let mut z = self.0;
        z = (z ^ (z >> 30)).wrapping_mul(0xBF58_476D_1CE4_E5B9);
        z = (z ^ (z >> 27)).wrapping_mul(0x94D0_49BB_1331_11EB);
        z ^ (z >> 31)
    }

    pub fn below(&mut self, n: u64) -> u64 {
        self.next() % n
    }

    /// From -1 to 1.
    pub fn sample(&mut self) -> f32 {
        ((self.next() >> 40) as f32 / (1u64 << 23) as f32) - 1.0
    }

    /// From 0 to 0.6.
    pub fn frequency(&mut self) -> f32 {
        (self.next() >> 40) as f32 / (1u64 << 24) as f32 * 0.6
    }

    /// A special value, a limit or a neighbour of one, any word, a frequency or a sample.
    pub fn any(&mut self) -> f32 {
        match self.below(8) {
            0 => f32::from_bits(SPECIAL[self.below(16) as usize]),
            1 | 2 => {
                let near =
                    LIMITS[self.below(8) as usize].to_bits() as i64 + self.below(9) as i64 - 4;
                let x = f32::from_bits(near as u32);
                if self.below(4) == 0 {
                    -x
                } else {
                    x
                }
            }
            3 | 4 => f32::from_bits(self.next() as u32),
            5 => self.frequency(),
            _ => self.sample(),
        }
    }

    /// Tame numbers keep a filter going; of the others one in eight is any.
    pub fn value(&mut self, tame: bool) -> f32 {
        if !tame && self.below(8) == 0 {
            self.any()
        } else {
            self.sample()
        }
    }

    pub fn words<const N: usize>(&mut self, tame: bool) -> [f32; N] {
        std::array::from_fn(|_| if tame { self.sample() } else { self.any() })
    }

    pub fn buffer(&mut self, length: usize, tame: bool) -> Vec<f32> {
        (0..length).map(|_| self.value(tame)).collect()
    }

    /// Mostly short, from 0 up.
    pub fn length(&mut self) -> usize {
        match self.below(8) {
            0 => self.below(4) as usize,
            1..=5 => self.below(65) as usize,
            _ => self.below(513) as usize,
        }
    }

    /// A step from 1 to 2^64 - 1: small, beside a length, a power of two, any, or the largest.
    pub fn step(&mut self, length: usize) -> usize {
        let step = match self.below(6) {
            0 | 1 => 1 + self.below(9),
            2 => (length as u64 + self.below(3)).saturating_sub(1),
            3 => 1 << self.below(64),
            4 => self.next(),
            _ => u64::MAX - self.below(2),
        };
        step.max(1) as usize
    }
}
