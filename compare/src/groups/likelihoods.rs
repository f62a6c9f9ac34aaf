//! demap and decide of cells of every kind, by the source's tables at several gains and by tables of any numbers.

use crate::bits::Bits;
use crate::inputs::edges32;
use crate::oracle::dsp::Complex;
use crate::oracle::phy::Constellation;
use crate::oracle::phy::est::{decide, demap};
use crate::oracle::phy::expected::scaled;
use crate::oracle::phy::frame::Points;
use crate::probes::likelihoods::{self as probes, Cell};
use crate::report::Tally;
use crate::rng::Rng;
use crate::standins;

/// Seeded cells for each constellation: the source's time grows with the points.
const CELLS: [usize; 4] = [200_000, 120_000, 60_000, 15_000];
/// Cells for each number of bits with a table of any numbers.
const TABLES: usize = 2_000;

pub fn compare() -> Tally {
    let mut t = Tally::new("demap, decide");
    let mut rng = Rng::new(170);
    let edges = edges32();
    let gains: Vec<f32> = (0..=3).map(standins::gain).chain([0.125, 8.0, -0.75, 3e19]).collect();
    for code in 0..4 {
        let tables: Vec<Points> = gains.iter().map(|&g| scaled(Constellation::from_code(code), g).0).collect();
        for i in 0..CELLS[code as usize] {
            one(&mut t, &tables[i % tables.len()], &cell(&mut rng, &edges));
        }
    }
    for bps in 0..=6 {
        for _ in 0..TABLES {
            let pts = Points {
                bps,
                pts: std::array::from_fn(|_| Complex::new(number(&mut rng, &edges), number(&mut rng, &edges))),
            };
            one(&mut t, &pts, &cell(&mut rng, &edges));
        }
    }
    refusals(&mut t);
    t
}

/// Usual, of a cell whose noise is small, or each number of any kind.
fn cell(rng: &mut Rng, edges: &[f32]) -> Cell {
    let mut usual = || (4.0 * rng.unit() - 2.0) as f32;
    let (y, h) = ([usual(), usual()], [usual(), usual()]);
    match rng.bits32() % 4 {
        0 => Cell { y, h, mse: rng.unit() as f32, sigma2: rng.unit() as f32 },
        1 => Cell { y, h, mse: (1e-3 * rng.unit()) as f32, sigma2: (1e-3 * rng.unit()) as f32 },
        2 => Cell { y, h, mse: rng.pick(&[0.0, -0.0, 1e-20, 1e20]), sigma2: rng.pick(&[0.0, 1e-38, 1e-10, f32::MAX]) },
        _ => {
            let mut n = || number(rng, edges);
            Cell { y: [n(), n()], h: [n(), n()], mse: n(), sigma2: n() }
        }
    }
}

fn number(rng: &mut Rng, edges: &[f32]) -> f32 {
    match rng.bits32() % 4 {
        0 => rng.pick(edges),
        1 => rng.any32(),
        _ => (4.0 * rng.unit() - 2.0) as f32,
    }
}

/// One likelihood a bit, the point, and what is past them as it was.
fn one(t: &mut Tally, pts: &Points, c: &Cell) {
    let table = std::array::from_fn(|i| if i % 2 == 0 { pts.pts[i / 2].re } else { pts.pts[i / 2].im });
    let (y, h) = (Complex::new(c.y[0], c.y[1]), Complex::new(c.h[0], c.h[1]));
    let args =
        [pts.bps as u64, c.y[0].bits(), c.y[1].bits(), c.h[0].bits(), c.h[1].bits(), c.mse.bits(), c.sigma2.bits()];
    let (mut ours, mut theirs) = ([7.0f32; 8], [7.0f32; 8]);
    t.same("demap", &args, probes::demap(&table, pts.bps, c, &mut ours), 1);
    demap(y, h, c.mse, c.sigma2, pts, &mut theirs);
    ours.into_iter().zip(theirs).for_each(|(v, e)| t.same("likelihood", &args, v, e));
    let mut ours = [7.0f32; 3];
    t.same("decide", &args, probes::decide(&table, pts.bps, c, &mut ours), 1);
    let x = decide(y, h, pts);
    ours.into_iter().zip([x.re, x.im, 7.0]).for_each(|(v, e)| t.same("point", &args, v, e));
}

fn refusals(t: &mut Tally) {
    let (table, c) = ([1.0; 128], Cell { y: [1.0; 2], h: [1.0; 2], mse: 1.0, sigma2: 1.0 });
    for bps in [7, 64, usize::MAX] {
        let mut out = [7.0f32; 64];
        t.same("demap, refused", &[bps as u64], probes::demap(&table, bps, &c, &mut out), 0);
        t.same("decide, refused", &[bps as u64], probes::decide(&table, bps, &c, &mut out), 0);
        t.same("as before", &[bps as u64], out == [7.0; 64], true);
    }
    for bps in 1..=6 {
        let mut out = [7.0f32; 6];
        t.same("demap, no room", &[bps as u64], probes::demap(&table, bps, &c, &mut out[..bps - 1]), 0);
        t.same("decide, no room", &[bps as u64], probes::decide(&table, bps, &c, &mut out[..1]), 0);
        t.same("as before", &[bps as u64], out == [7.0; 6], true);
    }
}
