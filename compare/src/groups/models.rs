//! The nine residuals and the model chosen, for seeded bursts and for the cases found by running the source.

use super::bursts::{Asked, burst};
use crate::oracle::burst::Burst;
use crate::probes::estimates::{Selected, Work, models};
use crate::report::Tally;
use crate::rng::Rng;

pub fn compare() -> Tally {
    let mut t = Tally::new("models");
    let mut rng = Rng::new(190);
    for layout in 0..9 {
        for kind in 0..12 {
            one(&mut t, &burst(&mut rng, layout, kind, [1, 3][kind % 2]), (0, 0));
        }
    }
    let [fallback, not_a_number] = found();
    one(&mut t, &fallback, (1, 0));
    one(&mut t, &not_a_number, (0, 1));
    t
}

/// A burst that no model fits, and one whose scale is not a number.
pub fn found() -> [Burst; 2] {
    let (mut none, mut nan) = (Burst::plain(7, 0, 1), Burst::plain(7, 0, 1));
    none.grid[0] = f32::MAX;
    (nan.k, nan.boost, nan.pilot_gain, nan.p_h) = (1, 0.125, 0.75, f32::MAX);
    nan.carrier_variances.fill(f32::MAX);
    [none, nan]
}

/// `expected` says how many times the fallback and a scale that is not a number must be met.
fn one(t: &mut Tally, b: &Burst, expected: (usize, usize)) {
    let (est, asked) = (b.refine().est, Asked::new(b));
    let mut work = Work::new(b.shape().nc, b.symbols());
    let m = models(&asked.settings, &asked.lists(b), b.k, &mut work);
    let args = |i: usize| [b.layout as u64, b.nsym as u64, b.k as u64, i as u64];
    t.same("pilots", &args(0), m.np, est.pilots.len());
    t.same("nine", &args(0), est.residuals.len(), 9);
    m.residuals.iter().zip(&est.residuals).enumerate().for_each(|(i, (&v, &e))| t.same("residual", &args(i), v, e));
    t.same("fd", &args(0), m.fd as usize, est.index.0);
    t.same("tm", &args(0), m.tm as usize, est.index.1);
    t.same("scale", &args(0), m.scale, est.mse_scale);
    if expected.0 == 1 {
        t.same("fallback", &args(0), m.fd, 3);
    }
    if expected.1 == 1 {
        t.same("not a number", &args(0), m.scale.is_nan(), true);
    }
    let few = b.grid.len() - 1;
    let mut short = asked.lists(b);
    short.grid = &b.grid[..few];
    let m = models(&asked.settings, &short, b.k, &mut work);
    t.same("refused", &args(0), m.np, 0);
    t.same("nothing told", &args(0), m == Selected::NOTHING, true);
}
