//! Document 01's printed example, and cases found by running the source with the stand-ins.

use crate::oracle::burst::Burst;
use crate::oracle::dsp::Complex;
use crate::oracle::phy::est::decide;
use crate::oracle::phy::frame::qpsk;
use crate::report::Tally;

pub fn check() -> Tally {
    let mut t = Tally::new("oracle: found cases");
    printed_example(&mut t);
    scale_not_a_number(&mut t);
    error_not_a_number(&mut t);
    no_model(&mut t);
    no_point(&mut t);
    t
}

fn model(t: &mut Tally, what: &str, b: &Burst, index: (usize, usize), scale: u32) {
    let r = b.refine();
    t.same(what, &[0], r.est.index.0, index.0);
    t.same(what, &[1], r.est.index.1, index.1);
    t.same(what, &[2], r.est.mse_scale, f32::from_bits(scale));
    t.same(what, &[3], r.spoilt(), 0);
}

/// Its zeros are negative at bits 0, 1 and 5, which the printer does not show.
fn printed_example(t: &mut Tally) {
    let b = Burst::plain(7, 0, 1);
    model(t, "printed example", &b, (0, 0), 0x3F80_0000);
    let llrs = b.refine().llrs;
    t.same("printed bits", &[], llrs.len(), 6);
    t.same("bits", &[], b.bits(), 6);
    for (i, &expected) in [-0.0, -0.0, 0.0, 0.0, 0.0, -0.0f32].iter().enumerate() {
        t.same("printed likelihood", &[i as u64], llrs[i], expected);
    }
}

fn scale_not_a_number(t: &mut Tally) {
    let mut b = Burst::plain(7, 0, 1);
    (b.k, b.boost, b.pilot_gain, b.p_h) = (1, 0.125, 0.75, f32::MAX);
    b.carrier_variances.fill(f32::MAX);
    model(t, "scale not a number", &b, (0, 0), 0x7FC0_0000);
}

/// An infinite pilot variance: `max` makes 0 of the error.
fn error_not_a_number(t: &mut Tally) {
    let mut b = Burst::plain(7, 0, 1);
    b.pilot_gain = 0.125;
    b.carrier_variances.fill(f32::MAX);
    let r = b.refine();
    t.same("infinite variance", &[], r.est.pilots.iter().any(|p| p.var.is_infinite()), true);
    for (cell, c) in r.channel().chunks_exact(3).enumerate() {
        t.same("its error", &[cell as u64], c[2], 0.0);
    }
}

fn no_model(t: &mut Tally) {
    let mut b = Burst::plain(7, 0, 1);
    b.grid[0] = f32::MAX;
    let index = b.refine().est.index;
    t.same("fallback fd", &[], index.0, 3);
    t.same("fallback tm", &[], index.1, 3);
}

fn no_point(t: &mut Tally) {
    let x = decide(Complex::ZERO, Complex::new(f32::MAX, 0.0), &qpsk());
    t.same("decide", &[0], x.re, 0.0);
    t.same("decide", &[1], x.im, 0.0);
}
