//! The gain of each code.

use crate::report::Tally;
use crate::{probes, standins};

pub fn compare() -> Tally {
    let mut t = Tally::new("gain");
    t.each("gain", 0..=3, probes::gain, standins::gain);
    t.each("gain outside", [4, 5, u32::MAX], probes::gain, |_| f32::NAN);
    t
}
