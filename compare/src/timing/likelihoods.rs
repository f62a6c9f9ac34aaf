//! One demapped cell of each constellation.

use std::hint::black_box;

use super::beside::beside;
use crate::inputs::seeded;
use crate::oracle::dsp::Complex;
use crate::oracle::phy::Constellation;
use crate::oracle::phy::est::demap;
use crate::oracle::phy::frame::Points;
use crate::probes::likelihoods::{self as probes, Cell};

const CELLS: u64 = 500;

pub fn print() {
    for (code, name) in ["QPSK", "8PSK", "16QAM", "64QAM"].into_iter().enumerate() {
        one(&format!("demap {name}"), &Constellation::from_code(code as u8).points());
    }
}

fn one(name: &str, pts: &Points) {
    let table = std::array::from_fn(|i| if i % 2 == 0 { pts.pts[i / 2].re } else { pts.pts[i / 2].im });
    let cells: Vec<Cell> = seeded(93, CELLS, |r| {
        let mut number = || (4.0 * r.unit() - 2.0) as f32;
        let (y, h) = ([number(), number()], [number(), number()]);
        Cell { y, h, mse: (0.1 * r.unit()) as f32, sigma2: (0.01 + 0.2 * r.unit()) as f32 }
    })
    .collect();
    let source: fn(Complex, Complex, f32, f32, &Points, &mut [f32]) = black_box(demap);
    let (mut a, mut b) = ([0.0; 6], [0.0; 6]);
    beside(
        name,
        CELLS,
        0.0,
        || cells.iter().for_each(|c| _ = black_box(probes::demap(&table, pts.bps, c, &mut a))),
        || {
            for c in &cells {
                let (y, h) = (Complex::new(c.y[0], c.y[1]), Complex::new(c.h[0], c.h[1]));
                source(y, h, c.mse, c.sigma2, pts, black_box(&mut b));
            }
        },
    );
}
