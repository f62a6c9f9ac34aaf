//! soft_point under priors of every kind, with the source's tables at several gains and with
//! tables of any numbers.

use crate::bits::Bits;
use crate::inputs::{beside32, edges32};
use crate::oracle::dsp::Complex;
use crate::oracle::phy::Constellation;
use crate::oracle::phy::expected::scaled;
use crate::oracle::phy::frame::Points;
use crate::oracle::phy::rx::refine::soft_point;
use crate::probes::constellations as probes;
use crate::report::Tally;
use crate::rng::Rng;

/// Seeded lists of priors for each constellation: the source's time grows with the points.
const LISTS: [usize; 4] = [120_000, 80_000, 50_000, 20_000];
/// Lists for each number of bits with a table of any numbers.
const TABLES: usize = 1_500;
const GAINS: [f32; 6] = [1.0, 1.0902, 0.125, 8.0, -0.75, 3e19];

pub fn compare() -> Tally {
    let mut t = Tally::new("soft_point");
    let mut rng = Rng::new(130);
    let edges = edges();
    for code in 0..4 {
        for &a in &edges {
            edges.iter().for_each(|&b| with_gain(&mut t, code, 1.0, &[a, b, a, b, b, a]));
        }
        for _ in 0..LISTS[code as usize] {
            let llr = priors(&mut rng, &edges);
            with_gain(&mut t, code, rng.pick(&GAINS), &llr);
        }
    }
    for bps in 0..=6 {
        (0..TABLES).for_each(|_| with_table(&mut t, &mut rng, bps, &edges));
    }
    refusals(&mut t);
    t
}

/// The format's, and those around the clamp.
fn edges() -> Vec<f32> {
    edges32().into_iter().chain(beside32(30.0, 2)).chain(beside32(-30.0, 2)).collect()
}

/// Each prior an edge, of the usual size, small, or anything.
fn priors(rng: &mut Rng, edges: &[f32]) -> [f32; 7] {
    std::array::from_fn(|_| match rng.bits32() % 8 {
        0 => rng.pick(edges),
        1 => (1e-3 * (rng.unit() - 0.5)) as f32,
        2 => rng.any32(),
        3 | 4 => (6.0 * rng.unit() - 3.0) as f32,
        _ => (80.0 * rng.unit() - 40.0) as f32,
    })
}

fn with_gain(t: &mut Tally, code: u32, gain: f32, llr: &[f32]) {
    let (pts, _) = scaled(Constellation::from_code(code as u8), gain);
    let call = |out: &mut [f32]| probes::soft_point(code, gain, llr, out);
    one(t, "soft_point", &[code as u64, gain.bits()], llr, &pts, call);
}

fn with_table(t: &mut Tally, rng: &mut Rng, bps: usize, edges: &[f32]) {
    let any = rng.bits32() & 1 == 0;
    let mut number = || if any { rng.any32() } else { (4.0 * rng.unit() - 2.0) as f32 };
    let table: [f32; 128] = std::array::from_fn(|_| number());
    let pts = Points { bps, pts: std::array::from_fn(|k| Complex::new(table[2 * k], table[2 * k + 1])) };
    let llr = &priors(rng, edges)[..bps];
    one(t, "soft_point_of", &[bps as u64], llr, &pts, |out| probes::soft_point_of(&table, bps, llr, out));
}

/// Mean, variance, and the number past them as it was.
fn one(t: &mut Tally, what: &str, args: &[u64], llr: &[f32], pts: &Points, call: impl Fn(&mut [f32]) -> u32) {
    let (mean, var) = soft_point(llr, pts);
    let mut out = [7.0; 4];
    let done = call(&mut out);
    let args: Vec<u64> = args.iter().copied().chain(llr.iter().map(|l| l.bits())).collect();
    t.same(what, &args, done, 1);
    for (v, e) in out.into_iter().zip([mean.re, mean.im, var, 7.0]) {
        t.same(what, &args, v, e);
    }
}

fn refusals(t: &mut Tally) {
    let table = [1.0; 128];
    for code in 0..4 {
        let bps = Constellation::from_code(code as u8).bits_per_symbol();
        for (bits, room) in [(bps - 1, 3), (0, 3), (bps, 2), (bps, 0)] {
            let (llr, mut out) = (vec![1.0; bits], [7.0f32; 3]);
            let args = [code as u64, bits as u64, room as u64];
            t.same("soft_point, refused", &args, probes::soft_point(code, 1.0, &llr, &mut out[..room]), 0);
            t.same("soft_point_of, refused", &args, probes::soft_point_of(&table, bps, &llr, &mut out[..room]), 0);
            t.same("as before", &args, out == [7.0; 3], true);
        }
    }
    for bps in [7, 64, usize::MAX] {
        let mut out = [7.0f32; 3];
        let done = probes::soft_point_of(&table, bps, &[0.0; 64], &mut out);
        t.same("soft_point_of, refused", &[bps as u64], done, 0);
        t.same("as before", &[bps as u64], out == [7.0; 3], true);
    }
}
