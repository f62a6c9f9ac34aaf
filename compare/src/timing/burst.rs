//! What is done for each data cell and each symbol of a burst: a table or factors are made once
//! before, as refine does.

use std::hint::black_box;

use super::{least, show};
use crate::inputs::seeded;
use crate::oracle::dsp::Complex;
use crate::oracle::phy::Constellation;
use crate::oracle::phy::frame::{Points, Spreader};
use crate::oracle::phy::rx::refine::soft_point;
use crate::probes::{constellations, spreading};

const CELLS: u64 = 1_000;
const SYMBOLS: u64 = 100;

pub fn print() {
    for (code, name) in ["QPSK", "8PSK", "16QAM", "64QAM"].into_iter().enumerate() {
        soft_points(&format!("soft_point {name}"), Constellation::from_code(code as u8));
    }
    for m in [44, 99] {
        twiddles(m);
        spread(m);
    }
}

/// Nanoseconds of a call that is made again and again.
fn repeated<R>(mut call: impl FnMut() -> R) -> f64 {
    least(SYMBOLS, || {
        for _ in 0..SYMBOLS {
            black_box(call());
        }
    })
}

fn soft_points(name: &str, cons: Constellation) {
    let pts = cons.points();
    let flat = std::array::from_fn(|i| if i % 2 == 0 { pts.pts[i / 2].re } else { pts.pts[i / 2].im });
    let priors: Vec<f32> = seeded(91, CELLS * pts.bps as u64, |r| (80.0 * r.unit() - 40.0) as f32).collect();
    let mut out = [0.0; 3];
    let ours = least(CELLS, || {
        for llr in priors.chunks_exact(pts.bps) {
            black_box(constellations::soft_point_of(&flat, pts.bps, llr, &mut out));
        }
    });
    let source: fn(&[f32], &Points) -> (Complex, f32) = black_box(soft_point);
    let theirs = least(CELLS, || {
        for llr in priors.chunks_exact(pts.bps) {
            black_box(source(llr, &pts));
        }
    });
    show(name, ours, theirs);
}

fn twiddles(m: usize) {
    let mut tw = [0.0; 218];
    let ours = repeated(|| spreading::twiddles(m, &mut tw));
    let theirs = repeated(|| Spreader::new(black_box(m)));
    show(&format!("twiddles {m}"), ours, theirs);
}

/// The same numbers over and over: the transform keeps their power.
fn spread(m: usize) {
    let mut flat: Vec<f32> = seeded(92, 2 * m as u64, |r| (2.0 * r.unit() - 1.0) as f32).collect();
    let mut list: Vec<Complex> = flat.chunks_exact(2).map(|z| Complex::new(z[0], z[1])).collect();
    let mut tw = [0.0; 218];
    spreading::twiddles(m, &mut tw);
    let mut source = Spreader::new(m);
    let ours = repeated(|| spreading::forward(&tw, m, &mut flat));
    let theirs = repeated(|| source.forward(black_box(&mut list)));
    show(&format!("spread {m}"), ours, theirs);
}
