//! The rows of the table.

use std::hint::black_box;

use super::{ARGUMENTS, arguments, least, row, show};
use crate::groups::LONGEST;
use crate::oracle::phy::{frame, slots};
use crate::{probes, standins};

pub fn print() {
    rounding();
    choices();
    elementary();
    words();
    slot_lists();
}

fn rounding() {
    let wide = arguments(|r| 1e3 * r.unit());
    let single = arguments(|r| (1e3 * r.unit()) as f32);
    row("narrow", &wide, |x| probes::narrow(x), |x| x as f32);
    row("sqrt32", &single, |x| probes::sqrt32(x), f32::sqrt);
    row("sqrt64", &wide, |x| probes::sqrt64(x), f64::sqrt);
}

fn choices() {
    let single = arguments(|r| ((r.unit() * 100.0 - 50.0) as f32, (r.unit() * 100.0 - 50.0) as f32));
    let wide: Vec<(f64, f64)> = single.iter().map(|&(a, b)| (a as f64, b as f64)).collect();
    row("max32", &single, |(a, b)| probes::max32(a, b), |(a, b)| standins::max32(a, b));
    row("max64", &wide, |(a, b)| probes::max64(a, b), |(a, b)| standins::max64(a, b));
    row("clamp32", &single, |(x, _)| probes::clamp32(x, -30.0, 30.0), |(x, _)| x.clamp(-30.0, 30.0));
    row("clamp64", &wide, |(x, _)| probes::clamp64(x, -30.0, 30.0), |(x, _)| x.clamp(-30.0, 30.0));
    row("abs64", &wide, |(x, _)| probes::abs64(x), |(x, _)| x.abs());
    row("is_finite32", &single, |(x, _)| probes::is_finite32(x), |(x, _)| x.is_finite());
}

fn elementary() {
    row("exp", &arguments(|r| (-30.0 * r.unit()) as f32), |x| probes::exp(x), standins::exp);
    row("ln", &arguments(|r| (1.0 + 31.0 * r.unit()) as f32), |v| probes::ln(v), standins::ln);
    row("ln_1p", &arguments(|r| r.unit() as f32), |t| probes::ln_1p(t), standins::ln_1p);
    let angles = arguments(|r| 600.0 * r.unit() - 300.0);
    row("sin", &angles, |p| probes::sin(p), standins::sin);
    row("cos", &angles, |p| probes::cos(p), standins::cos);
    row("gain", &arguments(|r| r.bits32() % 4), |q| probes::gain(q), standins::gain);
}

fn words() {
    let any = arguments(|r| r.bits32());
    row("mix32", &any, |x| probes::mix32(x), frame::mix32);
    row(
        "scramble",
        &any,
        |i| probes::scramble(frame::SEED_DATA, i),
        |i| frame::scramble(frame::SEED_DATA, i as usize) as u32,
    );
    let lengths = arguments(|r| r.between(6, LONGEST as u64) as usize);
    row("interleave_step", &lengths, |n| probes::interleave_step(n), frame::interleave_step);
    row("slot", &lengths, |n| probes::slot(n, n / 3), |n| frame::interleave_step(n) * (n / 3) % n);
}

/// One call over the numbers of one burst; the time is a number's. The source's loops make
/// their list, ours are lent one.
fn slot_lists() {
    let n = ARGUMENTS as usize;
    let list = arguments(|r| (80.0 * r.unit() - 40.0) as f32);
    let mut out = vec![0.0; n];
    let ours = least(ARGUMENTS, || probes::to_slots(&list, n, &mut out));
    let theirs = least(ARGUMENTS, || slots::to_slots(black_box(&list), n));
    show("to_slots", ours, theirs);
    let ours = least(ARGUMENTS, || probes::from_slots(&list, n, &mut out));
    let theirs = least(ARGUMENTS, || slots::from_slots(black_box(&list), n));
    show("from_slots", ours, theirs);
}
