//! ln and ln_1p against their recipes, each on its domain.

use crate::inputs::{beside32, edges32, seeded};
use crate::report::Tally;
use crate::{probes, standins};

const EACH: u64 = 1_000_000;

pub fn compare_ln() -> Tally {
    let mut t = Tally::new("ln");
    let mut same = |xs: &mut dyn Iterator<Item = f32>| t.each("ln", xs, probes::ln, expected_ln);
    same(&mut edges32().into_iter());
    same(&mut beside32(standins::LN_LEAST, 1000).chain(beside32(1.0, 100_000)));
    // Every power of two.
    same(&mut (-100..=127).flat_map(|e| beside32(2f32.powi(e), 100)));
    same(&mut seeded(40, EACH, |r| {
        let lo = standins::LN_LEAST.to_bits() as u64;
        f32::from_bits(r.between(lo, 0x7F80_0000) as u32)
    }));
    // Sums of exponentials.
    same(&mut seeded(41, EACH, |r| (1.0 + 31.0 * r.unit()) as f32));
    same(&mut seeded(42, EACH / 10, |r| r.any32()));
    t
}

pub fn compare_ln_1p() -> Tally {
    let mut t = Tally::new("ln_1p");
    let mut same = |xs: &mut dyn Iterator<Item = f32>| t.each("ln_1p", xs, probes::ln_1p, expected_ln_1p);
    same(&mut edges32().into_iter());
    // Every power of two, from the subnormals to 1 and past it.
    same(&mut (-149..=1).flat_map(|e| beside32(2f32.powi(e), 100)));
    same(&mut seeded(43, EACH, |r| r.unit() as f32));
    same(&mut seeded(44, EACH, |r| f32::from_bits(r.between(0, 0x3F80_0001) as u32)));
    // What the source hands it.
    same(&mut seeded(45, EACH, |r| standins::exp((-30.0 * r.unit()) as f32)));
    same(&mut seeded(46, EACH / 10, |r| r.any32()));
    t
}

fn expected_ln(v: f32) -> f32 {
    if v < standins::LN_LEAST { f32::NAN } else { standins::ln(v) }
}

fn expected_ln_1p(t: f32) -> f32 {
    if (0.0..=1.0).contains(&t) { standins::ln_1p(t) } else { f32::NAN }
}
