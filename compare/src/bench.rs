//! Whole refinements of bursts as heard: ours, the source with the stand-ins (a) and with its own library functions (b),
//! by turns in one thread, in its own processor time. The source's runs start from the burst as its receiver keeps it; ours from lent lists.

use std::hint::black_box;

use crate::clock;
use crate::groups::refinements::call;
use crate::heard;
use crate::oracle::burst::Burst;
use crate::published;
use crate::report::Tally;
use crate::rng::Rng;

const RUNS: usize = 15;
const K: usize = 40;
const SURE: f64 = 2.5;

const CASES: &[(&str, Shape)] = &[
    ("0 QPSK 40", Shape(0, 0, 40, "")),
    ("0 16QAM sparse 40", Shape(0, 2, 40, "sparse")),
    ("0 64QAM 40", Shape(0, 3, 40, "")),
    ("3 16QAM 100", Shape(3, 2, 100, "")),
    ("1 8PSK spread 60", Shape(1, 1, 60, "spread")),
    ("4 QPSK 100", Shape(4, 0, 100, "")),
    ("5 16QAM spread 100", Shape(5, 2, 100, "spread")),
    ("7 QPSK 200", Shape(7, 0, 200, "")),
];

/// Layout, constellation, symbols, and what is set.
struct Shape(usize, u8, u16, &'static str);

/// False when an answer differs from (a)'s.
pub fn print() -> bool {
    println!("refine, k {K}, {RUNS} runs by turns, ms: least and median; ratios ours over (a) and (b)");
    println!(
        "{:<20} {:>5} | {:>8} {:>8} {:>8} | {:>8} {:>8} {:>8} | {:>6} {:>6} {:>6} {:>6}",
        "layout, symbols", "cells", "ours", "(a)", "(b)", "ours", "(a)", "(b)", "a lst", "a med", "b lst", "b med"
    );
    let mut t = Tally::new("answers, ours and (a)");
    CASES.iter().enumerate().for_each(|(i, (name, shape))| one(&mut t, i as u64, name, shape));
    t.print();
    t.different == 0
}

fn one(t: &mut Tally, i: u64, name: &str, shape: &Shape) {
    let mut rng = Rng::new(300 + i);
    let mut b = Burst::plain(shape.0, shape.1, shape.2);
    (b.sparse, b.spread, b.k) = (shape.3 == "sparse", shape.3 == "spread", K);
    heard::fill(&mut rng, &mut b, SURE);
    let (kept, published) = (b.kept(), published::kept(&b));
    let mut ours = call(&mut rng, &b, 0);
    let mut times: [Vec<f64>; 3] = Default::default();
    for _ in 0..RUNS {
        times[0].push(taken(|| ours.refine()));
        times[1].push(taken(|| kept.refine(&b.prior, K)));
        times[2].push(taken(|| published.refine(&b.prior, K)));
    }
    let (told, r) = (ours.refine(), kept.refine(&b.prior, K));
    t.same("fd", &[i], told.fd as usize, r.est.index.0);
    t.same("tm", &[i], told.tm as usize, r.est.index.1);
    t.same("scale", &[i], told.scale, r.est.mse_scale);
    r.llrs.iter().enumerate().for_each(|(j, &v)| t.same("likelihood", &[i, j as u64], ours.answer[j], v));
    r.channel().iter().enumerate().for_each(|(j, &v)| t.same("channel", &[i, j as u64], ours.channel[j], v));
    times.iter_mut().for_each(|list| list.sort_by(f64::total_cmp));
    let at = |n: usize| times.each_ref().map(|list| 1e3 * list[n]);
    let ([o, a, p], [om, am, pm]) = (at(0), at(RUNS / 2));
    println!(
        "{name:<20} {:>5} | {o:>8.2} {a:>8.2} {p:>8.2} | {om:>8.2} {am:>8.2} {pm:>8.2} | {:>6.3} {:>6.3} {:>6.3} {:>6.3}",
        b.cells(),
        o / a,
        om / am,
        o / p,
        om / pm
    );
}

fn taken<R>(mut run: impl FnMut() -> R) -> f64 {
    let start = clock::thread_seconds();
    drop(black_box(run()));
    clock::thread_seconds() - start
}
