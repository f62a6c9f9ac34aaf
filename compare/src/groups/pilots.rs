//! The pilots that the source's refine loads, for seeded bursts of every kind.

use crate::inputs::edges32;
use crate::oracle::burst::Burst;
use crate::oracle::phy::Constellation;
use crate::oracle::phy::est::Estimator;
use crate::oracle::phy::expected::{scaled, sent};
use crate::oracle::phy::slots::to_slots;
use crate::probes::pilots::{Lists, LoadSettings, load};
use crate::report::Tally;
use crate::rng::Rng;

/// Old contents of the work lists.
const OLD: u32 = 0xA5A5_A5A5;

pub fn compare() -> Tally {
    let mut t = Tally::new("load");
    let mut rng = Rng::new(160);
    let edges: Vec<f32> = edges32().into_iter().filter(|v| v.is_finite()).collect();
    for layout in 0..9 {
        for kind in 0..16 {
            for nsym in [1, 4] {
                one(&mut t, &burst(&mut rng, &edges, layout, kind, nsym));
            }
        }
    }
    t
}

/// All constellations, both patterns, plain and spread; one pilot an estimate, since only the loading counts here.
fn burst(rng: &mut Rng, edges: &[f32], layout: usize, kind: u8, nsym: u16) -> Burst {
    let mut b = Burst { sparse: kind & 4 != 0, spread: kind & 8 != 0, k: 1, ..Burst::plain(layout, kind & 3, nsym) };
    b.cell_variances = (0..b.cells()).map(|_| rng.unit() as f32).collect();
    b.gain_code = rng.between(0, 4) as u8;
    (b.boost, b.pilot_gain) = (rng.pick(&[1.0, 0.125, 8.0, 1.3]), rng.pick(&[1.0, 0.125, 8.0, 0.77]));
    b.p_h = rng.pick(&[1.0, 1e-3, 40.0]);
    b.grid.iter_mut().for_each(|y| *y = (4.0 * rng.unit() - 2.0) as f32);
    let bits = b.bits();
    b.prior = (0..bits - rng.between(0, 3) as usize).map(|_| prior(rng, edges)).collect();
    b
}

/// Sure, unsure, or an edge of the format.
fn prior(rng: &mut Rng, edges: &[f32]) -> f32 {
    match rng.bits32() % 8 {
        0 => rng.pick(edges),
        1..=4 => (80.0 * rng.unit() - 40.0) as f32,
        _ => (4.0 * rng.unit() - 2.0) as f32,
    }
}

fn one(t: &mut Tally, b: &Burst) {
    let cons = Constellation::from_code(b.constellation);
    let mode = b.header().mode;
    let dc = b.shape().data_carriers(b.header().pilots());
    let (xm, xv) = sent(&to_slots(&b.prior, b.bits()), cons, mode, dc);
    let expected: Vec<f32> = xm.iter().zip(&xv).flat_map(|(x, &v)| [x.re, x.im, v]).collect();
    let settings = LoadSettings {
        layout: b.layout as u32,
        sparse: b.sparse,
        gain: b.pilot_gain,
        nsym: b.nsym as usize,
        boost: b.boost,
        p_h: b.p_h,
        es: scaled(cons, mode.gain()).1,
    };
    let n = b.symbols() * b.shape().nc;
    let (mut w, mut pf) = (vec![OLD; 2 * n + b.symbols() + 1], vec![f32::from_bits(OLD); 3 * n]);
    let lists = Lists { grid: &b.grid, sigma: &b.carrier_variances, cells: &b.cell_variances, expected: &expected };
    refusals(t, b, &settings, &lists, &mut w, &mut pf);
    let np = load(&settings, &lists, &mut w, &mut pf);
    same(t, b, &b.refine().est, np, &w, &pf);
}

/// A list that is one short is refused, and nothing is written.
fn refusals(t: &mut Tally, b: &Burst, s: &LoadSettings, l: &Lists, w: &mut [u32], pf: &mut [f32]) {
    let at = [b.layout as u64];
    let (few, less) = (w.len() - 1, pf.len() - 1);
    t.same("w short", &at, load(s, l, &mut w[..few], pf), 0);
    t.same("pf short", &at, load(s, l, w, &mut pf[..less]), 0);
    for k in 0..4 {
        let cut = |i: usize, x: &[f32]| if i == k { x.len() - 1 } else { x.len() };
        let short = Lists {
            grid: &l.grid[..cut(0, l.grid)],
            sigma: &l.sigma[..cut(1, l.sigma)],
            cells: &l.cells[..cut(2, l.cells)],
            expected: &l.expected[..cut(3, l.expected)],
        };
        t.same("list short", &[b.layout as u64, k as u64], load(s, &short, w, pf), 0);
    }
    t.same("w as it was", &at, w.iter().all(|&v| v == OLD), true);
    t.same("pf as it was", &at, pf.iter().all(|v| v.to_bits() == OLD), true);
}

fn same(t: &mut Tally, b: &Burst, est: &Estimator, np: usize, w: &[u32], pf: &[f32]) {
    let at = |i: usize| [b.layout as u64, b.nsym as u64, i as u64];
    let n = b.symbols() * b.shape().nc;
    t.same("pilots", &at(0), np, est.pilots.len());
    for (i, p) in est.pilots.iter().enumerate().take(np) {
        t.same("carrier", &at(i), w[i], p.c as u32);
        t.same("symbol", &at(i), w[n + i], p.g as u32);
        t.same("re", &at(i), pf[3 * i], p.h.re);
        t.same("im", &at(i), pf[3 * i + 1], p.h.im);
        t.same("variance", &at(i), pf[3 * i + 2], p.var);
    }
    for (g, &start) in est.start.iter().enumerate() {
        t.same("start", &at(g), w[2 * n + g] as usize, start);
    }
}
