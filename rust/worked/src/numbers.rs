//! Unequal numbers with three decimal places, of both signs.

use problems::rng::Rng;

/// Numbers drawn from a seed.
pub struct Numbers {
    rng: Rng,
    given: Vec<u64>,
}

impl Numbers {
    pub fn new(seed: u64) -> Self {
        Self {
            rng: Rng::new(seed),
            given: vec![],
        }
    }

    /// From 0.001 to 9.999, never one that was given before.
    pub fn positive(&mut self) -> f64 {
        loop {
            let thousandths = 1 + self.rng.bits() % 9999;
            if !thousandths.is_multiple_of(10) && !self.given.contains(&thousandths) {
                self.given.push(thousandths);
                return thousandths as f64 / 1000.0;
            }
        }
    }

    pub fn either(&mut self) -> f64 {
        let number = self.positive();
        if self.rng.bits().is_multiple_of(2) {
            number
        } else {
            -number
        }
    }

    pub fn some(&mut self, len: usize) -> Vec<f64> {
        (0..len).map(|_| self.either()).collect()
    }

    pub fn some_positive(&mut self, len: usize) -> Vec<f64> {
        (0..len).map(|_| self.positive()).collect()
    }
}
