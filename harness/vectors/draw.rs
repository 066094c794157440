//! Random draws from a fixed seed.
use calls::table::Range;

/// SplitMix64.
pub struct Draw(u64);

impl Draw {
    pub fn seeded(seed: u64) -> Self {
        Self(seed)
    }

    pub fn bits(&mut self) -> u64 {
        self.0 = self.0.wrapping_add(0x9E37_79B9_7F4A_7C15);
        let mut z = self.0;
        z = (z ^ (z >> 30)).wrapping_mul(0xBF58_476D_1CE4_E5B9);
        z = (z ^ (z >> 27)).wrapping_mul(0x94D0_49BB_1331_11EB);
        z ^ (z >> 31)
    }

    pub fn below(&mut self, n: u64) -> u64 {
        self.bits() % n
    }

    pub fn count(&mut self, low: u64, high: u64) -> u64 {
        low + self.below(high - low + 1)
    }

    /// In 0 to 1.
    pub fn unit(&mut self) -> f64 {
        (self.bits() >> 11) as f64 / (1u64 << 53) as f64
    }

    pub fn uniform(&mut self, low: f64, high: f64) -> f64 {
        (low + self.unit() * (high - low)).clamp(low, high)
    }

    /// One in eight draws is an end; a range above 0 is drawn evenly by the exponent, any other evenly.
    pub fn within(&mut self, range: Range) -> f64 {
        let Range { low, high } = range;
        match self.below(16) {
            0 => low,
            1 => high,
            _ if low > 0.0 => by_exponent(low, high, self.unit()),
            _ => self.uniform(low, high),
        }
    }

    pub fn all_within<const N: usize>(&mut self, ranges: &[Range; N]) -> [f64; N] {
        std::array::from_fn(|i| self.within(ranges[i]))
    }

    pub fn pick<T: Copy>(&mut self, from: &[T]) -> T {
        from[self.below(from.len() as u64) as usize]
    }
}

/// Between low and high, both above 0, evenly by the bit pattern: no transcendental function is needed.
fn by_exponent(low: f64, high: f64, part: f64) -> f64 {
    let (a, b) = (low.to_bits(), high.to_bits());
    f64::from_bits(a + ((b - a) as f64 * part) as u64).clamp(low, high)
}
