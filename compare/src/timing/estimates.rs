//! One estimate at k = 40, at a cell of the middle symbol that has about as many candidates as asked for: in bursts where only
//! known cells are pilots, and in bursts where all are.

use std::hint::black_box;

use super::beside::beside;
use crate::groups::bursts::Asked;
use crate::oracle::burst::Burst;
use crate::oracle::phy::est::Estimator;
use crate::probes::estimates::{self as probes, Work};

const CALLS: u64 = 1_000;
const NSYM: u16 = 60;

pub fn print() {
    let bursts: Vec<(Burst, Estimator)> = (0..36).map(burst).map(|b| (b.clone(), b.refine().est)).collect();
    for candidates in [117, 823] {
        let cells = bursts.iter().flat_map(|(b, est)| (0..=b.shape().nc / 2).map(move |c| (b, est, c)));
        let (b, _, c) = cells.min_by_key(|&(b, est, c)| count(b, est, c).abs_diff(candidates)).unwrap();
        one(b, c);
    }
}

/// Layout and pattern by the number, and sure priors in the later half.
fn burst(i: usize) -> Burst {
    let mut b = Burst { sparse: i % 2 == 1, ..Burst::plain(i / 2 % 9, 0, NSYM) };
    b.k = 40;
    b.cell_variances = vec![0.1; b.cells()];
    b.carrier_variances.fill(0.1);
    b.grid.iter_mut().enumerate().for_each(|(n, y)| *y = (n % 7) as f32 - 3.0);
    b.prior = vec![if i < 18 { 0.0 } else { 30.0 }; b.bits()];
    b
}

fn middle(b: &Burst) -> usize {
    b.symbols() - NSYM as usize / 2
}

/// The cell's own pilot, which is left out.
fn own(b: &Burst, est: &Estimator, c: usize) -> usize {
    est.pilot_index(c, middle(b)).unwrap_or(usize::MAX)
}

/// The pilots that the estimate at carrier c chooses from.
fn count(b: &Burst, est: &Estimator, c: usize) -> usize {
    let (g, l) = (middle(b), b.shape());
    let near = |p: u16, q: usize, width: usize| (p as usize).abs_diff(q) <= width;
    let inside = est.pilots.iter().filter(|p| near(p.g, g, l.gw) && near(p.c as u16, c, l.cw)).count();
    inside - usize::from(own(b, est, c) != usize::MAX)
}

/// Ours loads the burst and sets the model once for all calls, which is taken off.
fn one(b: &Burst, c: usize) {
    let (asked, g, (nc, ng)) = (Asked::new(b), middle(b), (b.shape().nc, b.symbols()));
    let mut est = b.refine().est;
    let exclude = own(b, &est, c);
    let model = probes::Asked { k: b.k, fd: est.index.0 as u32, tm: est.index.1 as u32, scale: est.mse_scale };
    let (mut work, mut out) = (Work::new(nc, ng), vec![0.0; 3 * CALLS as usize]);
    let at = vec![(g * nc + c) as u32; CALLS as usize];
    let (lists, name) = (asked.lists(b), format!("estimate, {} candidates", count(b, &est, c)));
    let mut ask = |at: &[u32], work: &mut Work| probes::estimates(&asked.settings, &lists, model, at, work, &mut out);
    let before = super::least(1, || ask(&[], &mut work)) * 1e-9;
    beside(
        &name,
        CALLS,
        before,
        || _ = black_box(ask(&at, &mut work)),
        || (0..CALLS).for_each(|_| _ = black_box(est.estimate_without(black_box(c), g, ng, b.p_h, exclude))),
    );
}
