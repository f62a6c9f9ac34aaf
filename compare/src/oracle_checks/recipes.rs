//! The stand-ins beside the functions that they stand for.

use crate::bits::Bits;
use crate::inputs::seeded;
use crate::report::Tally;
use crate::standins;

pub fn check() -> Tally {
    let mut t = Tally::new("oracle: recipes");
    near_the_library(&mut t);
    gains_clear_of_ties(&mut t);
    nearest(&mut t);
    t
}

/// A slip in a recipe would show here.
fn near_the_library(t: &mut Tally) {
    for x in seeded(110, 1000, |r| r.unit()) {
        let (exp, ln) = ((-87.0 * x) as f32, (1e-30 + 1e3 * x) as f32);
        let (log, wave) = (x as f32, 1000.0 * x - 500.0);
        let exp_off = standins::exp(exp) as f64 / (exp as f64).exp() - 1.0;
        t.same("exp near", &[exp.bits()], exp_off.abs() < 1e-7, true);
        t.same("ln near", &[ln.bits()], (standins::ln(ln) as f64 - (ln as f64).ln()).abs() < 1e-6, true);
        t.same("ln_1p near", &[log.bits()], (standins::ln_1p(log) as f64 - x.ln_1p()).abs() < 1e-7, true);
        t.same("sin near", &[wave.bits()], (standins::sin(wave) - wave.sin()).abs() < 1e-6, true);
        t.same("cos near", &[wave.bits()], (standins::cos(wave) - wave.cos()).abs() < 1e-6, true);
    }
}

/// The f64 power is good to a few units of 2e-16; a millionth of an f32 step off changes nothing.
fn gains_clear_of_ties(t: &mut Tally) {
    for code in 0..=3 {
        let wide = standins::wide_gain(code);
        for off in [-1e-13, 1e-13] {
            t.same("gain", &[code as u64], (wide + off) as f32, standins::gain(code));
        }
    }
}

/// The stable sort of the whole list, cut: document 01's words. Few distances, so that many are equal.
fn nearest(t: &mut Tally) {
    for list in seeded(111, 1000, |r| (0..r.between(42, 300)).map(|i| (r.between(0, 30) as f32, i as u32)).collect()) {
        let list: Vec<(f32, u32)> = list;
        let k = 1 + list.len() % 40;
        let (mut kept, mut sorted) = (list.clone(), list);
        standins::keep_nearest(&mut kept, k);
        sorted.sort_by(|a, b| a.0.total_cmp(&b.0));
        t.same("nearest", &[k as u64], kept == sorted[..k], true);
    }
}
