//! The estimate at every cell of seeded bursts, without the cell's own pilot, under every model.

use super::bursts::{Asked, burst};
use crate::oracle::burst::Burst;
use crate::oracle::phy::frame::Pilots;
use crate::probes::estimates::{self as probes, Work};
use crate::report::Tally;
use crate::rng::Rng;

pub fn compare() -> Tally {
    let mut t = Tally::new("estimates");
    let mut rng = Rng::new(180);
    for layout in 0..9 {
        for kind in 0..12 {
            let b = burst(&mut rng, layout, kind, [1, 3][kind % 2]);
            one(&mut t, &mut rng, &b, layout * 12 + kind);
        }
    }
    t
}

/// Over the 108 bursts every model and every k from 1 to 40; then the fallback, and k where it is held.
fn one(t: &mut Tally, rng: &mut Rng, b: &Burst, n: usize) {
    let mut est = b.refine().est;
    let (asked, l, ng) = (Asked::new(b), b.shape(), b.symbols());
    let at: Vec<u32> = (0..(ng * l.nc) as u32 + 2).collect();
    let mut work = Work::new(l.nc, ng);
    for turn in 0..2 {
        let (fd, tm, k) = if turn == 0 {
            ((n / 3 % 3) as u32, (n % 3) as u32, 1 + n % 40)
        } else {
            let (fd, tm) = rng.pick(&[(3, 3), (2, 0), (0, 2)]);
            (fd, tm, rng.pick(&[b.k, 0, 1, 40, 63]))
        };
        let scale = rng.pick(&[1.0, 3.7, f32::NAN]);
        let mut out = vec![7.0; 3 * at.len() + 1];
        let a = probes::Asked { k, fd, tm, scale };
        let np = probes::estimates(&asked.settings, &asked.lists(b), a, &at, &mut work, &mut out);
        t.same("pilots", &[b.layout as u64], np, est.pilots.len());
        let grid = if b.header().pilots() == Pilots::Sparse { &l.fd_sparse } else { &l.fd };
        let value = |i: u32, list: &[f64; 3], last: f64| if i < 3 { list[i as usize] } else { last };
        est.set_model(value(fd, grid, l.fd[2]), value(tm, &l.tm, l.tm[2]));
        (est.k, est.mse_scale) = (k.clamp(1, 40), scale);
        for (j, ours) in out.chunks_exact(3).enumerate() {
            let (c, g) = (j % l.nc, j / l.nc);
            let args = [b.layout as u64, k as u64, fd as u64, tm as u64, j as u64];
            let theirs = if g < ng {
                let (h, e) = est.estimate_without(c, g, ng, b.p_h, est.pilot_index(c, g).unwrap_or(usize::MAX));
                [h.re, h.im, e]
            } else {
                [f32::NAN; 3]
            };
            ours.iter().zip(theirs).for_each(|(&v, e)| t.same("estimate", &args, v, e));
        }
        t.same("past the end", &[b.layout as u64], out[3 * at.len()], 7.0);
        let room = 3 * at.len() - 1;
        let mut short = vec![7.0; room];
        probes::estimates(&asked.settings, &asked.lists(b), a, &at, &mut work, &mut short);
        t.same("no room", &[b.layout as u64], short.iter().all(|&v| v == 7.0), true);
    }
}
