//! Bursts for the estimator: every layout and pattern, soft cells many and few, usual and extreme numbers.

use crate::oracle::burst::Burst;
use crate::oracle::phy::Constellation;
use crate::oracle::phy::expected::{scaled, sent};
use crate::oracle::phy::slots::to_slots;
use crate::probes::pilots::{Lists, LoadSettings};
use crate::rng::Rng;

/// What the probes read of a burst beside its own lists.
pub struct Asked {
    pub settings: LoadSettings,
    pub expected: Vec<f32>,
}

impl Asked {
    pub fn new(b: &Burst) -> Asked {
        let cons = Constellation::from_code(b.constellation);
        let mode = b.header().mode;
        let dc = b.shape().data_carriers(b.header().pilots());
        let (xm, xv) = sent(&to_slots(&b.prior, b.bits()), cons, mode, dc);
        let settings = LoadSettings {
            layout: b.layout as u32,
            sparse: b.sparse,
            gain: b.pilot_gain,
            nsym: b.nsym as usize,
            boost: b.boost,
            p_h: b.p_h,
            es: scaled(cons, mode.gain()).1,
        };
        Asked { settings, expected: xm.iter().zip(&xv).flat_map(|(x, &v)| [x.re, x.im, v]).collect() }
    }

    pub fn lists<'a>(&'a self, b: &'a Burst) -> Lists<'a> {
        Lists { grid: &b.grid, sigma: &b.carrier_variances, cells: &b.cell_variances, expected: &self.expected }
    }
}

/// `kind` picks pattern, spreading, how sure the priors are, and how far the numbers go.
pub fn burst(rng: &mut Rng, layout: usize, kind: usize, nsym: u16) -> Burst {
    let mut b = Burst::plain(layout, (kind % 4) as u8, nsym);
    (b.sparse, b.spread) = (kind & 1 != 0, kind & 8 != 0);
    fill(rng, &mut b, kind % 3 == 2);
    b
}

/// Numbers for a burst whose shape is settled: usual ones, or some as far as they go.
pub fn fill(rng: &mut Rng, b: &mut Burst, extreme: bool) {
    b.cell_variances = vec![0.0; b.cells()];
    b.gain_code = rng.between(0, 4) as u8;
    b.k = rng.between(1, 41) as usize;
    (b.boost, b.pilot_gain) = (rng.pick(&[1.0, 0.125, 8.0, 1.3]), rng.pick(&[1.0, 0.125, 8.0, 0.77]));
    let sure = rng.pick(&[0.0, 1.0, 8.0, 60.0]);
    b.prior = (0..b.bits()).map(|_| (sure * (2.0 * rng.unit() - 1.0)) as f32).collect();
    b.p_h = if extreme { rng.pick(&[1e-38, 1e-30, 3e38, f32::MAX, 1.0]) } else { rng.pick(&[1.0, 1e-3, 40.0]) };
    let variance = |rng: &mut Rng| match (extreme, rng.bits32() % 8) {
        (true, 0) => rng.pick(&[0.0, f32::from_bits(1), 1e-38, f32::MAX]),
        _ => rng.unit() as f32,
    };
    b.carrier_variances.iter_mut().for_each(|v| *v = variance(rng));
    b.cell_variances.iter_mut().for_each(|v| *v = variance(rng));
    for y in b.grid.iter_mut() {
        *y = (4.0 * rng.unit() - 2.0) as f32;
        if extreme && rng.bits32() % 64 == 0 {
            *y = rng.pick(&[f32::MAX, -f32::MAX, f32::from_bits(1), 1e-38, -0.0, 1e30]);
        }
    }
}
