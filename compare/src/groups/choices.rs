//! max, clamp, size and finiteness against document 01's words and the library.

use crate::bits::Bits;
use crate::inputs::{edges32, edges64, seeded};
use crate::report::Tally;
use crate::{probes, standins};

const EACH: u64 = 1_000_000;
/// The limits that the source clamps with.
const LIMITS: [(f32, f32); 3] = [(-30.0, 30.0), (-40.0, 40.0), (1.0, 10.0)];

pub fn compare() -> Tally {
    let mut t = Tally::new("max, clamp, abs, is_finite");
    edges(&mut t);
    for (a, b) in seeded(20, EACH, |r| (r.any32(), r.any32())) {
        both32(&mut t, a, b);
        one32(&mut t, a);
    }
    for (a, b) in seeded(21, EACH, |r| (r.any64(), r.any64())) {
        both64(&mut t, a, b);
        one64(&mut t, a);
    }
    for x in seeded(22, EACH, |r| (r.unit() * 100.0 - 50.0) as f32) {
        one32(&mut t, x);
        one64(&mut t, x as f64);
    }
    t
}

fn edges(t: &mut Tally) {
    for a in edges32() {
        one32(t, a);
        edges32().into_iter().for_each(|b| both32(t, a, b));
    }
    for a in edges64() {
        one64(t, a);
        edges64().into_iter().for_each(|b| both64(t, a, b));
    }
}

fn both32(t: &mut Tally, a: f32, b: f32) {
    t.same("max32", &[a.bits(), b.bits()], probes::max32(a, b), standins::max32(a, b));
}

fn both64(t: &mut Tally, a: f64, b: f64) {
    t.same("max64", &[a.bits(), b.bits()], probes::max64(a, b), standins::max64(a, b));
}

fn one32(t: &mut Tally, x: f32) {
    t.same("is_finite32", &[x.bits()], probes::is_finite32(x), x.is_finite());
    for (lo, hi) in LIMITS {
        let args = [x.bits(), lo.bits(), hi.bits()];
        t.same("clamp32", &args, probes::clamp32(x, lo, hi), x.clamp(lo, hi));
    }
}

fn one64(t: &mut Tally, x: f64) {
    t.same("abs64", &[x.bits()], probes::abs64(x), x.abs());
    for (lo, hi) in LIMITS.map(|(lo, hi)| (lo as f64, hi as f64)) {
        let args = [x.bits(), lo.bits(), hi.bits()];
        t.same("clamp64", &args, probes::clamp64(x, lo, hi), x.clamp(lo, hi));
    }
}
