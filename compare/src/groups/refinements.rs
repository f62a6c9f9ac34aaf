//! Whole refinements: every layout, constellation, pattern and spreading, priors of every kind, usual and extreme numbers.

use super::bursts::fill;
use super::models::found;
use crate::oracle::burst::Burst;
use crate::probes::refinements::{Call, Settings};
use crate::report::Tally;
use crate::rng::Rng;

/// Bursts of each shape.
const ROUNDS: usize = 3;

pub fn compare() -> Tally {
    let mut t = Tally::new("refinements");
    let mut rng = Rng::new(210);
    let mut met = Met::default();
    for round in 0..ROUNDS {
        for shape in 0..144 {
            let nsym = rng.between(1, 7) as u16;
            let b = burst(&mut rng, shape, nsym, (round + shape) % 3 == 2);
            one(&mut t, &mut rng, &mut met, &b);
        }
    }
    for layout in 0..9 {
        let (shape, nsym) = (layout * 16 + rng.between(0, 16) as usize, rng.between(20, 61) as u16);
        let b = burst(&mut rng, shape, nsym, false);
        one(&mut t, &mut rng, &mut met, &b);
    }
    let longest = burst(&mut rng, 7 * 16 + 2, 1023, false);
    one(&mut t, &mut rng, &mut met, &longest);
    found().iter().for_each(|b| one(&mut t, &mut rng, &mut met, b));
    t.same("fallback, scale not a number, spoilt met", &[], met.fallback && met.scale && met.spoilt, true);
    t
}

/// What must occur among the bursts.
#[derive(Default)]
pub struct Met {
    fallback: bool,
    scale: bool,
    spoilt: bool,
}

/// `shape` counts layout, constellation, pattern and spreading.
pub fn burst(rng: &mut Rng, shape: usize, nsym: u16, extreme: bool) -> Burst {
    let mut b = Burst::plain(shape / 16, (shape / 4 % 4) as u8, nsym);
    (b.sparse, b.spread) = (shape & 2 != 0, shape & 1 != 0);
    fill(rng, &mut b, extreme);
    if rng.bits32().is_multiple_of(16) {
        b.k = rng.pick(&[0, 63]);
    }
    priors(rng, &mut b);
    b
}

/// None, few, all as they are, some huge, or more than there are bits: those are not looked at.
fn priors(rng: &mut Rng, b: &mut Burst) {
    match rng.bits32() % 5 {
        0 => b.prior.clear(),
        1 => b.prior.truncate(rng.between(0, b.bits() as u64) as usize),
        2 => {}
        3 => {
            for v in b.prior.iter_mut() {
                if rng.bits32().is_multiple_of(4) {
                    *v = rng.pick(&[f32::MAX, -f32::MAX, 1e30, -1e5, 200.0, f32::from_bits(1), -0.0]);
                }
            }
        }
        _ => b.prior.extend([f32::NAN, 1.0, f32::INFINITY]),
    }
}

/// A call for the burst, with `extra` numbers more than needed in each list that is lent.
pub fn call(rng: &mut Rng, b: &Burst, extra: usize) -> Call {
    let work = b.bits() + 6 * b.grid.len() + extra;
    let settings = Settings {
        layout: b.layout as u32,
        constellation: b.constellation as u32,
        nsym: b.nsym as usize,
        sparse: b.sparse,
        spread: b.spread,
        gain_code: b.gain_code as u32,
        k: b.k,
        boost: b.boost,
        pilot_gain: b.pilot_gain,
        p_h: b.p_h,
    };
    Call {
        settings,
        grid: b.grid.clone(),
        sigma: b.carrier_variances.clone(),
        cells: b.cell_variances.clone(),
        prior: b.prior.clone(),
        answer: (0..b.bits() + extra).map(|_| rng.any32()).collect(),
        channel: (0..3 * b.cells() + extra).map(|_| rng.any32()).collect(),
        wf: (0..work).map(|_| rng.any32()).collect(),
        wu: (0..work).map(|_| rng.bits32()).collect(),
    }
}

pub fn one(t: &mut Tally, rng: &mut Rng, met: &mut Met, b: &Burst) {
    let extra = rng.pick(&[0, 0, 1, 5]);
    let mut c = call(rng, b, extra);
    let before = c.clone();
    let r = b.refine();
    let channel = r.channel();
    let flags = (b.sparse as u64) << 1 | b.spread as u64;
    let args = |i: usize| [b.layout as u64, b.constellation as u64, flags, b.nsym as u64, b.k as u64, i as u64];
    let ours = c.refine();
    t.same("accepted", &args(0), ours.number, 0);
    t.same("fd", &args(0), ours.fd as usize, r.est.index.0);
    t.same("tm", &args(0), ours.tm as usize, r.est.index.1);
    t.same("spoilt", &args(0), ours.spoilt as usize, r.spoilt());
    t.same("scale", &args(0), ours.scale, r.est.mse_scale);
    t.same("likelihoods", &args(0), r.llrs.len(), b.bits());
    t.same("channel", &args(0), channel.len(), 3 * b.cells());
    r.llrs.iter().enumerate().for_each(|(i, &v)| t.same("likelihood", &args(i), c.answer[i], v));
    channel.iter().enumerate().for_each(|(i, &v)| t.same("channel", &args(i), c.channel[i], v));
    for i in 0..extra {
        let (j, k) = (b.bits() + i, 3 * b.cells() + i);
        t.same("past the answer", &args(i), c.answer[j].to_bits(), before.answer[j].to_bits());
        t.same("past the channel", &args(i), c.channel[k].to_bits(), before.channel[k].to_bits());
    }
    met.fallback |= r.est.index == (3, 3);
    met.scale |= r.est.mse_scale.is_nan();
    met.spoilt |= r.spoilt() > 0;
}
