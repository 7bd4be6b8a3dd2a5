//! The generator after every case: splitmix64, so that a seed gives the same files everywhere.

pub struct Random(u64);

impl Random {
    /// Each case has a generator of its own, so that a case can be made without those before it.
    pub fn of_case(seed: u64, case: u64) -> Self {
        let mut of_seed = Random(seed);
        Random(of_seed.next() ^ case.wrapping_mul(0xD1B5_4A32_D192_ED03))
    }

    /// Another generator, which takes nothing from this one: what this one makes stays the same.
    pub fn apart(&self) -> Self {
        Random(!self.0)
    }

    pub fn next(&mut self) -> u64 {
        self.0 = self.0.wrapping_add(0x9E37_79B9_7F4A_7C15);
        let mut z = self.0;
        z = (z ^ (z >> 30)).wrapping_mul(0xBF58_476D_1CE4_E5B9);
        z = (z ^ (z >> 27)).wrapping_mul(0x94D0_49BB_1331_11EB);
        z ^ (z >> 31)
    }

    /// A number below `end`, which is not 0. The slight favour to small numbers does no harm here.
    pub fn below(&mut self, end: usize) -> usize {
        (self.next() % end as u64) as usize
    }

    /// A number from `first` to `last`, both included.
    pub fn within(&mut self, first: usize, last: usize) -> usize {
        first + self.below(last - first + 1)
    }

    pub fn pick<T: Copy>(&mut self, choices: &[T]) -> T {
        choices[self.below(choices.len())]
    }

    /// The pattern of an f32. The patterns that are easy to get wrong come often.
    pub fn f32_bits(&mut self) -> u32 {
        let any = self.next() as u32;
        let sign = any & 0x8000_0000;
        let magnitude = match self.below(10) {
            0 => any & 0x7FFF_FFFF,
            1 => 0x7FC0_0000 | any & 0x003F_FFFF, // a quiet NaN
            2 => 0x7F80_0000 | (any & 0x003F_FFFF).max(1), // a signalling NaN
            3 => self.pick(&[0x7F80_0001, 0x7FBF_FFFF, 0x7FC0_0000, 0x7FFF_FFFF]),
            4 => 0x7F80_0000, // infinity
            5 => 0,
            6 => any & 0x007F_FFFF, // a subnormal number
            7 => self.pick(&[0x0000_0001, 0x007F_FFFF]),
            8 => self.pick(&[0x0080_0000, 0x3F80_0000, 0x7F7F_FFFF]),
            _ => (self.below(100_000) as f32 / 1000.0).to_bits(), // a usual coordinate
        };
        sign | magnitude
    }
}
