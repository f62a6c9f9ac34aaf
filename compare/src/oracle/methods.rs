//! The stand-ins as methods, so that a changed line of the source keeps its shape.

use crate::standins;

pub trait Single {
    fn standin_exp(self) -> f32;
    fn standin_ln(self) -> f32;
    fn standin_ln_1p(self) -> f32;
    fn standin_square(self) -> f32;
}

impl Single for f32 {
    fn standin_exp(self) -> f32 {
        standins::exp(self)
    }

    fn standin_ln(self) -> f32 {
        standins::ln(self)
    }

    fn standin_ln_1p(self) -> f32 {
        standins::ln_1p(self)
    }

    fn standin_square(self) -> f32 {
        self * self
    }
}

pub trait Double {
    fn standin_sin(self) -> f64;
    fn standin_cos(self) -> f64;
}

impl Double for f64 {
    fn standin_sin(self) -> f64 {
        standins::sin(self)
    }

    fn standin_cos(self) -> f64 {
        standins::cos(self)
    }
}

/// Whole numbers have it too: the source's lines don't tell them from floats.
pub trait Larger {
    fn standin_max(self, other: Self) -> Self;
}

impl Larger for f32 {
    fn standin_max(self, other: f32) -> f32 {
        standins::max32(self, other)
    }
}

impl Larger for f64 {
    fn standin_max(self, other: f64) -> f64 {
        standins::max64(self, other)
    }
}

impl Larger for usize {
    fn standin_max(self, other: usize) -> usize {
        self.max(other)
    }
}
