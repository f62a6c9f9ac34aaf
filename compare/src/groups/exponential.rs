//! exp against its recipe, on its domain: x <= 0, -infinity, NaN.

use crate::inputs::{beside32, edges32, seeded};
use crate::report::Tally;
use crate::{probes, standins};

const EACH: u64 = 1_000_000;
/// ln 2 as the recipe has it.
const LN_2: f64 = 2977044471.0 / 4294967296.0;

pub fn compare() -> Tally {
    let mut t = Tally::new("exp");
    let mut same = |xs: &mut dyn Iterator<Item = f32>| t.each("exp", xs, probes::exp, expected);
    same(&mut edges32().into_iter());
    same(&mut beside32(-87.0, 1000).chain(beside32(-88.0, 1000)));
    // Where the halvings change.
    same(&mut (1..=126).flat_map(|n| beside32((-LN_2 * n as f64) as f32, 100)));
    same(&mut seeded(30, EACH, |r| (-88.0 * r.unit()) as f32));
    same(&mut seeded(31, EACH, |r| (-r.unit()) as f32));
    same(&mut seeded(32, EACH, |r| f32::from_bits(r.bits32() | 1 << 31)));
    same(&mut seeded(33, EACH / 10, |r| r.any32()));
    t
}

fn expected(x: f32) -> f32 {
    if x > 0.0 { f32::NAN } else { standins::exp(x) }
}
