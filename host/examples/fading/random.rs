//! Seeded random numbers (splitmix64), so that a run can be repeated.

use std::f64::consts::TAU;

use crate::complex::Complex;

pub struct Random(pub u64);

impl Random {
    pub fn bits(&mut self) -> u64 {
        self.0 = self.0.wrapping_add(0x9E37_79B9_7F4A_7C15);
        let mut z = self.0;
        z = (z ^ (z >> 30)).wrapping_mul(0xBF58_476D_1CE4_E5B9);
        z = (z ^ (z >> 27)).wrapping_mul(0x94D0_49BB_1331_11EB);
        z ^ (z >> 31)
    }

    pub fn bit(&mut self) -> bool {
        self.bits() >> 63 == 1
    }

    /// Above 0 and up to 1.
    fn unit(&mut self) -> f64 {
        ((self.bits() >> 11) + 1) as f64 / (1u64 << 53) as f64
    }

    /// Both parts normal and independent (Box and Muller); the mean power is `power`.
    pub fn normal(&mut self, power: f64) -> Complex {
        let radius = (-power * self.unit().ln()).sqrt();
        let angle = TAU * self.unit();
        Complex::new(radius * angle.cos(), radius * angle.sin())
    }
}
