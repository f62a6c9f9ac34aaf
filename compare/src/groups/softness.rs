//! softplus, and the test of a mean's power.

use crate::bits::Bits;
use crate::inputs::{beside32, edges32, seeded};
use crate::oracle::dsp::Complex;
use crate::oracle::phy::expected::loud;
use crate::oracle::phy::rx::refine::softplus;
use crate::probes::constellations as probes;
use crate::report::Tally;

const EACH: u64 = 500_000;

pub fn compare_softplus() -> Tally {
    let mut t = Tally::new("softplus");
    let mut same = |xs: &mut dyn Iterator<Item = f32>| t.each("softplus", xs, probes::softplus, softplus);
    same(&mut edges32().into_iter());
    // Where the exponential ends, and the clamp.
    for x in [30.0, 86.5, 87.0, 88.0] {
        same(&mut beside32(x, 1000).chain(beside32(-x, 1000)));
    }
    same(&mut seeded(140, EACH, |r| (60.0 * r.unit() - 30.0) as f32));
    same(&mut seeded(141, EACH, |r| (2.0 * r.unit() - 1.0) as f32));
    same(&mut seeded(142, EACH, |r| r.any32()));
    t
}

pub fn compare_loud() -> Tally {
    let mut t = Tally::new("loud");
    let mut same = |re: f32, im: f32, es: f32| {
        let args = [re.bits(), im.bits(), es.bits()];
        t.same("loud", &args, probes::loud(re, im, es), loud(Complex::new(re, im), es));
    };
    for re in edges32() {
        for im in edges32() {
            edges32().into_iter().for_each(|es| same(re, im, es));
        }
    }
    for (re, im, es) in seeded(143, EACH, |r| (r.any32(), r.any32(), r.any32())) {
        same(re, im, es);
    }
    // Around the limit.
    for (re, im) in seeded(144, EACH / 10, |r| ((2.0 * r.unit() - 1.0) as f32, (2.0 * r.unit() - 1.0) as f32)) {
        let es = Complex::new(re, im).norm_sqr() * 10.0;
        beside32(es, 2).for_each(|es| same(re, im, es));
    }
    t
}
