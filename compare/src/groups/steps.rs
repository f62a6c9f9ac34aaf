//! interleave_step against the source's.

use crate::oracle::phy::frame::interleave_step;
use crate::probes;
use crate::report::Tally;

use super::burst_lengths;

pub fn compare() -> Tally {
    let mut t = Tally::new("interleave_step");
    let lengths = (0..=10_000).chain(burst_lengths::all());
    t.each("interleave_step", lengths, probes::interleave_step, interleave_step);
    t
}
