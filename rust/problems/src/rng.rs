//! A small seeded generator (splitmix64) and the numbers drawn from it.

/// Seeded random numbers; the same seed gives the same run.
#[derive(Clone)]
pub struct Rng(u64);

impl Rng {
    pub fn new(seed: u64) -> Self {
        Self(seed)
    }

    /// The generator of one problem of a run, so that a failing one can be run alone.
    pub fn of_problem(seed: u64, index: u64) -> Self {
        let mut rng = Self(seed ^ index.wrapping_mul(0xd134_2543_de82_ef95));
        rng.bits();
        rng
    }

    pub fn bits(&mut self) -> u64 {
        self.0 = self.0.wrapping_add(0x9e37_79b9_7f4a_7c15);
        let mut z = self.0;
        z = (z ^ (z >> 30)).wrapping_mul(0xbf58_476d_1ce4_e5b9);
        z = (z ^ (z >> 27)).wrapping_mul(0x94d0_49bb_1331_11eb);
        z ^ (z >> 31)
    }

    /// A number below `limit`, which is not 0.
    pub fn below(&mut self, limit: usize) -> usize {
        ((u128::from(self.bits()) * limit as u128) >> 64) as usize
    }

    /// A number from `low` to `high`, both included.
    pub fn between(&mut self, low: usize, high: usize) -> usize {
        low + self.below(high - low + 1)
    }

    /// True `percent` times in a hundred.
    pub fn chance(&mut self, percent: usize) -> bool {
        self.below(100) < percent
    }

    pub fn pick<T: Copy>(&mut self, list: &[T]) -> T {
        list[self.below(list.len())]
    }

    /// Uniform from 0 to below 1.
    pub fn unit(&mut self) -> f64 {
        (self.bits() >> 11) as f64 / (1u64 << 53) as f64
    }

    /// Any finite double.
    pub fn any_finite(&mut self) -> f64 {
        loop {
            let number = f64::from_bits(self.bits());
            if number.is_finite() {
                return number;
            }
        }
    }

    /// A NaN of any payload, or an infinity.
    pub fn not_finite(&mut self) -> f64 {
        match self.below(4) {
            0 => f64::INFINITY,
            1 => f64::NEG_INFINITY,
            2 => f64::NAN,
            _ => f64::from_bits(self.bits() | 0x7ff0_0000_0000_0001),
        }
    }

    pub fn sign(&mut self) -> f64 {
        if self.chance(50) { 1.0 } else { -1.0 }
    }
}

/// How far from everyday numbers a problem strays.
#[derive(Clone, Copy, PartialEq, Eq)]
pub enum Flavour {
    /// Between -10 and 10, some whole, some zero.
    Tame,
    /// Zeros of both signs, subnormals, small and large.
    Mixed,
    /// Any finite double.
    Wild,
}

/// A finite number of this flavour.
pub fn number(rng: &mut Rng, flavour: Flavour) -> f64 {
    match flavour {
        Flavour::Tame => match rng.below(8) {
            0 => rng.below(9) as f64 - 4.0,
            1 => 0.0,
            _ => 20.0 * rng.unit() - 10.0,
        },
        Flavour::Mixed => match rng.below(8) {
            0 => 0.0,
            1 => -0.0,
            2 => rng.sign() * f64::from_bits(rng.bits() >> 12),
            3 => rng.sign() * rng.unit() * 1e150,
            4 => rng.sign() * rng.unit() * 1e-150,
            5 => rng.sign() * f64::MAX / rng.pick(&[4.0, 1e10, 1e100]),
            _ => 20.0 * rng.unit() - 10.0,
        },
        Flavour::Wild => rng.any_finite(),
    }
}

/// A weight or scale that is accepted, minus zero among them.
pub fn weight(rng: &mut Rng, flavour: Flavour) -> f64 {
    if rng.chance(4) {
        return -0.0;
    }
    number(rng, flavour).abs()
}
