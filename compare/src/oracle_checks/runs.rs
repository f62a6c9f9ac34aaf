//! A seeded burst of every kind through the oracle. The stand-ins stop the program outside
//! their domains, so this also shows that the source stays inside.

use crate::oracle::burst::Burst;
use crate::oracle::phy::est::LLR_MAX;
use crate::report::Tally;
use crate::rng::Rng;

pub fn check() -> Tally {
    let mut t = Tally::new("oracle: every kind");
    let mut rng = Rng::new(100);
    for layout in 0..9 {
        for kind in 0..16 {
            one(&mut t, &burst(&mut rng, layout, kind));
        }
    }
    t
}

/// All constellations, both patterns, plain and spread.
fn burst(rng: &mut Rng, layout: usize, kind: u8) -> Burst {
    let mut b = Burst { sparse: kind & 4 != 0, spread: kind & 8 != 0, ..Burst::plain(layout, kind & 3, 1) };
    b.cell_variances = vec![0.1; b.cells()];
    b.gain_code = rng.between(0, 4) as u8;
    b.k = rng.between(1, 41) as usize;
    b.grid.iter_mut().for_each(|y| *y = (4.0 * rng.unit() - 2.0) as f32);
    b.prior = (0..b.bits()).map(|_| (80.0 * rng.unit() - 40.0) as f32).collect();
    b
}

/// As many likelihoods as bits, none past the limit.
fn one(t: &mut Tally, b: &Burst) {
    let r = b.refine();
    t.same("likelihoods", &[b.layout as u64], r.llrs.len(), b.bits());
    t.same("spoilt", &[b.layout as u64], r.spoilt(), 0);
    for (i, v) in r.llrs.iter().enumerate() {
        t.same("within the limit", &[b.layout as u64, i as u64], v.abs() <= LLR_MAX, true);
    }
}
