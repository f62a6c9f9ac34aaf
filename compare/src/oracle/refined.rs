//! What a refinement hands out.

use super::dsp::Complex;
use super::phy::est::Estimator;

pub struct Refined {
    /// One likelihood a bit, in bit order.
    pub llrs: Vec<f32>,
    /// As refine left it: pilots, candidates, chosen model (`index`, 3 3 for the fallback) and
    /// `mse_scale`.
    pub est: Estimator,
    h: Vec<Complex>,
    mse: Vec<f32>,
}

impl Refined {
    pub fn new(llrs: Vec<f32>, est: Estimator, h: Vec<Complex>, mse: Vec<f32>) -> Refined {
        Refined { llrs, est, h, mse }
    }

    /// Each cell's estimate (re, im) and error, in cell order.
    pub fn channel(&self) -> Vec<f32> {
        self.h.iter().zip(&self.mse).flat_map(|(h, &e)| [h.re, h.im, e]).collect()
    }

    /// The likelihoods that are not a number.
    pub fn spoilt(&self) -> usize {
        self.llrs.iter().filter(|v| v.is_nan()).count()
    }
}

/// Where `value` stands in a model grid.
pub fn place(value: f64, grid: &[f64; 3]) -> usize {
    grid.iter().position(|&v| v == value).expect("a model of the grid")
}
