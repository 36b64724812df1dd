//! Made-up numbers, the same from the same seed on every machine.

#[path = "../../vectors/special.rs"]
mod special;

use special::SPECIAL;

/// The source's density floor below 0, and a large number below 0.
const BELOW: [u64; 2] = [0xbd71_9799_812d_ea11, 0xffe0_0000_0000_0000];

/// Steele, Lea and Flood's SplitMix64.
pub struct Made(u64);

impl Made {
    /// The numbers of one place in a list that a seed starts.
    pub fn of(seed: u64, place: u64) -> Made {
        Made(Made(seed).next() ^ Made(!place).next())
    }

    pub fn next(&mut self) -> u64 {
        self.0 = self.0.wrapping_add(0x9e37_79b9_7f4a_7c15);
        let a = (self.0 ^ (self.0 >> 30)).wrapping_mul(0xbf58_476d_1ce4_e5b9);
        let b = (a ^ (a >> 27)).wrapping_mul(0x94d0_49bb_1331_11eb);
        b ^ (b >> 31)
    }

    pub fn below(&mut self, limit: u64) -> u64 {
        self.next() % limit
    }

    pub fn one_in(&mut self, chances: u64) -> bool {
        self.below(chances) == 0
    }

    pub fn pick<T: Copy>(&mut self, from: &[T]) -> T {
        from[self.below(from.len() as u64) as usize]
    }

    pub fn between(&mut self, low: f64, high: f64) -> f64 {
        low + (high - low) * ((self.next() >> 11) as f64 / (1u64 << 53) as f64)
    }

    /// Any 64 bits.
    pub fn bits(&mut self) -> f64 {
        f64::from_bits(self.next())
    }

    /// A number, one of the two next to it, or the negative of one of these.
    pub fn next_to(&mut self, number: f64) -> f64 {
        let near = self.pick(&[number, number.next_down(), number.next_up()]);
        self.pick(&[near, -near])
    }

    pub fn special(&mut self) -> f64 {
        let at = self.below((SPECIAL.len() + BELOW.len()) as u64) as usize;
        f64::from_bits(SPECIAL.get(at).copied().unwrap_or_else(|| BELOW[at - SPECIAL.len()]))
    }

    /// A number near the top of the range, of either sign.
    pub fn huge(&mut self) -> f64 {
        let made = self.next();
        f64::from_bits((made & 0x800f_ffff_ffff_ffff) | ((1700 + made % 346) << 52))
    }
}
