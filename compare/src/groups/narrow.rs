//! f64 to f32 against the hardware.

use crate::inputs::{beside64, edge_ties, edges64, seeded, tie_above, with_exponent64};
use crate::probes;
use crate::report::Tally;

const EACH: u64 = 3_000_000;
/// Exponent fields around which f32 becomes 0, becomes subnormal, and overflows.
const LIMITS: [(u64, u64); 3] = [(868, 900), (896, 899), (1148, 1153)];

pub fn compare() -> Tally {
    let mut t = Tally::new("narrow");
    let mut same = |xs: &mut dyn Iterator<Item = f64>| t.each("narrow", xs, probes::narrow, |x| x as f32);
    same(&mut edges64().into_iter().chain(edge_ties()));
    same(&mut seeded(1, EACH, |r| r.any64()));
    same(&mut seeded(2, EACH, |r| with_exponent64(r, 866, 1154)));
    same(&mut seeded(3, EACH, |r| {
        let (lo, hi) = r.pick(&LIMITS);
        with_exponent64(r, lo, hi)
    }));
    same(&mut seeded(4, EACH, |r| tie_above(finite(r.bits32()))).flat_map(|x| beside64(x, 1)));
    t
}

/// The pattern's number, an infinity or NaN made finite by clearing one bit.
fn finite(bits: u32) -> f32 {
    let x = f32::from_bits(bits);
    if x.is_finite() { x } else { f32::from_bits(bits & !0x4000_0000) }
}
