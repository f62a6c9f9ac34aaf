//! Both square roots against the hardware, which rounds correctly.

use crate::inputs::{beside32, beside64, edges32, edges64, seeded};
use crate::probes;
use crate::report::Tally;
use crate::rng::Rng;

const EACH: u64 = 2_000_000;

pub fn compare32() -> Tally {
    let mut t = Tally::new("sqrt32");
    let mut same = |xs: &mut dyn Iterator<Item = f32>| t.each("sqrt32", xs, probes::sqrt32, |x| x.sqrt());
    same(&mut edges32().into_iter());
    same(&mut seeded(10, EACH, |r| r.any32()));
    same(&mut seeded(11, EACH, |r| f32::from_bits(r.bits32() >> 1)));
    same(&mut seeded(12, EACH, |r| f32::from_bits(r.bits32() >> 9)));
    same(&mut seeded(13, EACH, square32).flat_map(|x| beside32(x, 1)));
    same(&mut seeded(14, EACH, |r| halfway32(r.between(1 << 23, 1 << 24))).flat_map(|x| beside32(x, 1)));
    t
}

pub fn compare64() -> Tally {
    let mut t = Tally::new("sqrt64");
    let mut same = |xs: &mut dyn Iterator<Item = f64>| t.each("sqrt64", xs, probes::sqrt64, |x| x.sqrt());
    same(&mut edges64().into_iter());
    same(&mut seeded(15, EACH, |r| r.any64()));
    same(&mut seeded(16, EACH, |r| f64::from_bits(r.bits64() >> 1)));
    same(&mut seeded(17, EACH, |r| f64::from_bits(r.bits64() >> 12)));
    same(&mut seeded(18, EACH, square64).flat_map(|x| beside64(x, 1)));
    same(&mut seeded(19, EACH, |r| halfway64(r.between(1 << 52, 1 << 53))).flat_map(|x| beside64(x, 1)));
    t
}

/// An exact square times an even power of two.
fn square32(r: &mut Rng) -> f32 {
    let n = r.between(0, 1 << 12) as f32;
    n * n * 2f32.powi(2 * r.between(0, 100) as i32 - 100)
}

fn square64(r: &mut Rng) -> f64 {
    let n = r.between(0, 1 << 26) as f64;
    n * n * 2f64.powi(2 * r.between(0, 900) as i32 - 900)
}

/// The argument whose root is nearest to halfway between the digits n and n + 1.
fn halfway32(n: u64) -> f32 {
    (n * (n + 1)) as f32
}

fn halfway64(n: u64) -> f64 {
    (n as u128 * (n as u128 + 1)) as f64
}
