//! Bursts as a station hears them: sent through two fading paths and noise, with priors that lean to the bits sent.

use std::f64::consts::TAU;

use crate::oracle::burst::Burst;
use crate::oracle::dsp::Complex;
use crate::oracle::phy::Constellation;
use crate::oracle::phy::frame::{Map, NC_MAX, Spreader};
use crate::oracle::phy::rx::known;
use crate::oracle::phy::slots::to_slots;
use crate::rng::Rng;

/// Noise power a cell for each constellation: 9, 13, 16 and 22 dB below the signal.
const NOISE: [f64; 4] = [0.126, 0.05, 0.025, 0.0063];
const WAVES: usize = 6;

/// One path's rays: amplitude's angle, turns a symbol; and the delay in turns a carrier.
struct Path {
    rays: [(f64, f64); WAVES],
    delay: f64,
}

impl Path {
    fn new(rng: &mut Rng, b: &Burst) -> Path {
        let l = b.shape();
        let symbol = l.sym() as f64 / 8000.0;
        let delay = (rng.unit() - 0.5) * 0.5 * l.tm[1] / l.n as f64;
        Path { rays: std::array::from_fn(|_| (rng.unit(), (2.0 * rng.unit() - 1.0) * l.fd[0] * symbol)), delay }
    }

    fn at(&self, c: usize, g: usize) -> (f64, f64) {
        let size = (0.5 / WAVES as f64).sqrt();
        let angle = |&(start, turn): &(f64, f64)| TAU * (start + turn * g as f64 - self.delay * c as f64);
        let sum = |part: fn(f64) -> f64| size * self.rays.iter().map(|r| part(angle(r))).sum::<f64>();
        (sum(f64::cos), sum(f64::sin))
    }
}

/// Grid, variances, p_h and priors for a burst whose shape and settings are settled. `sure` is the priors' mean size.
pub fn fill(rng: &mut Rng, b: &mut Burst, sure: f64) {
    let noise = NOISE[b.constellation as usize];
    let paths = [Path::new(rng, b), Path::new(rng, b)];
    let bits: Vec<f32> = (0..b.bits()).map(|_| rng.pick(&[1.0, -1.0])).collect();
    let sent = cells(b, &to_slots(&bits, bits.len()));
    for (i, (y, x)) in b.grid.chunks_exact_mut(2).zip(sent).enumerate() {
        let (c, g) = (i % b.carrier_variances.len(), i / b.carrier_variances.len());
        let (re, im) = paths.iter().map(|p| p.at(c, g)).fold((0.0, 0.0), |s, h| (s.0 + h.0, s.1 + h.1));
        let heard = Complex::new(re as f32, im as f32) * x;
        let n = (0.5 * noise).sqrt();
        (y[0], y[1]) = (heard.re + (n * normal(rng)) as f32, heard.im + (n * normal(rng)) as f32);
    }
    let mut variance = || (noise * (0.8 + 0.4 * rng.unit())) as f32;
    b.carrier_variances.iter_mut().for_each(|v| *v = variance());
    b.cell_variances = (0..b.cells()).map(|_| variance()).collect();
    b.p_h = (0.8 + 0.4 * rng.unit()) as f32;
    b.prior = bits.iter().map(|&s| (s as f64 * sure + (2.0 * sure).sqrt() * normal(rng)) as f32).collect();
}

/// What is sent at each cell of the grid, symbol by symbol. A label bit of 1 is a negative slot.
fn cells(b: &Burst, slots: &[f32]) -> Vec<Complex> {
    let (map, nc) = (b.map(), b.shape().nc);
    let pts = Constellation::from_code(b.constellation).points();
    let label = |bits: &[f32]| bits.iter().fold(0, |k, &v| k << 1 | usize::from(v < 0.0));
    let mut points: Vec<Complex> = slots.chunks_exact(pts.bps).map(|bits| pts.pts[label(bits)]).collect();
    let dc = b.shape().data_carriers(map.pilots);
    if b.spread {
        let mut spreader = Spreader::new(dc);
        points.chunks_exact_mut(dc).for_each(|row| spreader.forward(row));
    }
    let gain = b.header().mode.gain();
    let mut grid: Vec<Complex> =
        (0..b.symbols() * nc).map(|i| known(&map, i % nc, i / nc).unwrap_or(Complex::new(1.0, 0.0))).collect();
    for (s, row) in points.chunks_exact(dc).enumerate() {
        let g = map.hdr_end + s;
        for (&c, x) in carriers(&map, g)[..dc].iter().zip(row) {
            grid[g * nc + c as usize] = x.scale(gain);
        }
    }
    grid
}

fn carriers(map: &Map, g: usize) -> [u8; NC_MAX] {
    let mut list = [0; NC_MAX];
    map.data_carriers_of(g, &mut list);
    list
}

/// Mean 0, variance 1: twelve even ones.
fn normal(rng: &mut Rng) -> f64 {
    (0..12).map(|_| rng.unit()).sum::<f64>() - 6.0
}
