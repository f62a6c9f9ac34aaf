//! sin and cos against their recipes, on their domain |p| < 512 and past it.

use std::f64::consts::{PI, TAU};

use crate::inputs::{beside64, edges64, seeded};
use crate::report::Tally;
use crate::{probes, standins};

const EACH: u64 = 400_000;
/// A quarter turn as the recipe has it.
const QUARTER: f64 = 1686629713.0 / 1073741824.0;

pub fn compare_sin() -> Tally {
    let mut t = Tally::new("sin");
    t.each("sin", arguments(), probes::sin, |p| expected(p, standins::sin));
    t
}

pub fn compare_cos() -> Tally {
    let mut t = Tally::new("cos");
    t.each("cos", arguments(), probes::cos, |p| expected(p, standins::cos));
    t
}

fn expected(p: f64, f: fn(f64) -> f64) -> f64 {
    if p.abs() >= 512.0 { f64::NAN } else { f(p) }
}

fn arguments() -> impl Iterator<Item = f64> {
    edges64()
        .into_iter()
        .chain(beside64(512.0, 100).chain(beside64(-512.0, 100)))
        .chain(quarters())
        .chain(phases())
        .chain(seeded(50, EACH, |r| 1024.0 * r.unit() - 512.0))
        .chain(seeded(51, EACH, |r| 8.0 * r.unit() - 4.0))
        .chain(seeded(52, EACH, |r| 512.0 * 2f64.powi(-(r.between(0, 60) as i32)) * (r.unit() - 0.5)))
        .chain(seeded(53, EACH / 10, |r| r.any64()))
}

/// Around every quarter turn, in steps of the recipe's unit and of the format.
fn quarters() -> impl Iterator<Item = f64> {
    (-330..=330).flat_map(|q| {
        let p = q as f64 * QUARTER;
        let units = (-20..=20).map(move |d| p + d as f64 / 1073741824.0);
        units.chain(beside64(p, 20))
    })
}

/// What the source hands them: Newman phases, spreading angles and points of 8PSK.
fn phases() -> impl Iterator<Item = f64> {
    let newman = (1..=109).flat_map(|n| (0..n).map(move |c| PI * (c * c) as f64 / n as f64));
    let spread = (1..=109).flat_map(|m| (0..m).map(move |k| -TAU * k as f64 / m as f64));
    let eighths = (0..8).map(|m| std::f64::consts::FRAC_PI_4 * m as f64 + PI / 8.0);
    newman.chain(spread).chain(eighths)
}
