//! Powers of two, neighbours and the fixed seed.

pub const LARGEST: f64 = f64::MAX;

/// 2^-1074, the least number above zero.
pub const LEAST: f64 = f64::from_bits(1);

/// A quiet, a negative quiet and a signalling NaN, and the infinities.
pub fn not_finite() -> [f64; 5] {
    [
        f64::NAN,
        f64::from_bits(0xfff8_0000_0000_0001),
        f64::from_bits(0x7ff0_0000_0000_0001),
        f64::INFINITY,
        f64::NEG_INFINITY,
    ]
}

/// 2^k for k from -1074 to 1023.
pub fn two_to(k: i32) -> f64 {
    if k >= -1022 {
        f64::from_bits(((k + 1023) as u64) << 52)
    } else {
        f64::from_bits(1 << (k + 1074))
    }
}

/// The next number above; that of either zero is 2^-1074.
pub fn above(x: f64) -> f64 {
    if x == 0.0 {
        LEAST
    } else if x > 0.0 {
        f64::from_bits(x.to_bits() + 1)
    } else {
        f64::from_bits(x.to_bits() - 1)
    }
}

pub fn below(x: f64) -> f64 {
    -above(-x)
}

/// Marsaglia's xorshift, 13, 7, 17.
pub struct Seed(u64);

impl Seed {
    pub(crate) fn new() -> Seed {
        Seed(0x9e37_79b9_7f4a_7c15)
    }

    /// By a number of the caller's, its bits mixed as splitmix64 mixes them; xorshift
    /// must not start at zero.
    pub fn of(number: u64) -> Seed {
        let word = number.wrapping_add(0x9e37_79b9_7f4a_7c15);
        let word = (word ^ word >> 30).wrapping_mul(0xbf58_476d_1ce4_e5b9);
        let word = (word ^ word >> 27).wrapping_mul(0x94d0_49bb_1331_11eb);
        Seed((word ^ word >> 31).max(1))
    }

    pub fn word(&mut self) -> u64 {
        self.0 ^= self.0 << 13;
        self.0 ^= self.0 >> 7;
        self.0 ^= self.0 << 17;
        self.0
    }

    /// From 0 to bound - 1.
    pub fn under(&mut self, bound: usize) -> usize {
        ((self.word() >> 16) % bound as u64) as usize
    }

    /// At least 0, below 1, 53 bits.
    pub fn part(&mut self) -> f64 {
        (self.word() >> 11) as f64 * two_to(-53)
    }

    /// Either sign, magnitude at least 2^low, below 2^high, exponents evenly spread.
    pub fn spread(&mut self, low: i32, high: i32) -> f64 {
        let k = low + self.under((high - low) as usize) as i32;
        let magnitude = two_to(k) * (1.0 + self.part());
        if self.word() >> 63 == 0 {
            magnitude
        } else {
            -magnitude
        }
    }
}
