//! The four tables whole, scaled by every gain, and their mean energy.

use crate::bits::Bits;
use crate::inputs::{edges32, seeded};
use crate::oracle::phy::Constellation;
use crate::oracle::phy::expected::scaled;
use crate::oracle::phy::frame::Points;
use crate::probes::constellations as probes;
use crate::report::Tally;
use crate::standins;

const SEEDED: u64 = 2_000;

pub fn compare() -> Tally {
    let mut t = Tally::new("points, mean energy");
    for code in (0..=255).chain([256, u32::MAX]) {
        // A code past a byte names the last, as every one past 3.
        let cons = Constellation::from_code(code.min(255) as u8);
        unscaled(&mut t, code, cons);
        at_gain(&mut t, code, cons, 0.75);
    }
    for code in 0..=3 {
        let cons = Constellation::from_code(code as u8);
        gains().for_each(|gain| at_gain(&mut t, code, cons, gain));
        refusals(&mut t, code);
    }
    t
}

/// All gain codes, the edges, and any.
fn gains() -> impl Iterator<Item = f32> {
    let usual = seeded(120, SEEDED, |r| (4.0 * r.unit()) as f32);
    (0..=3).map(standins::gain).chain(edges32()).chain(usual).chain(seeded(121, SEEDED, |r| r.any32()))
}

fn unscaled(t: &mut Tally, code: u32, cons: Constellation) {
    let mut out = [7.0; 130];
    t.same("bits a point", &[code as u64], probes::points(code, &mut out), cons.bits_per_symbol());
    table(t, "points", &[code as u64], &out, &cons.points());
}

fn at_gain(t: &mut Tally, code: u32, cons: Constellation, gain: f32) {
    let args = [code as u64, gain.bits()];
    let (pts, es) = scaled(cons, gain);
    let mut out = [7.0; 130];
    t.same("scaled", &args, probes::scaled(code, gain, &mut out), 1);
    table(t, "scaled", &args, &out, &pts);
    t.same("mean energy", &args, probes::mean_energy(code, gain), es);
}

/// 64 points, and the numbers past them as they were.
fn table(t: &mut Tally, what: &str, args: &[u64], out: &[f32], pts: &Points) {
    let expected = pts.pts.iter().flat_map(|p| [p.re, p.im]).chain([7.0; 2]);
    for (&v, e) in out.iter().zip(expected) {
        t.same(what, args, v, e);
    }
}

fn refusals(t: &mut Tally, code: u32) {
    for room in [0, 1, 127] {
        let mut out = [7.0f32; 128];
        t.same("points, refused", &[code as u64], probes::points(code, &mut out[..room]), 0);
        t.same("scaled, refused", &[code as u64], probes::scaled(code, 2.0, &mut out[..room]), 0);
        t.same("as before", &[code as u64], out == [7.0; 128], true);
    }
}
