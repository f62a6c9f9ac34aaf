//! Document 01's stand-ins, step by step as its recipes say. Each is for its stated domain and
//! stops the program outside it, so a run of the oracle also shows that none is asked for more.

/// M, the unit of the fixed point numbers.
const M: u64 = 1 << 32;
/// L, ln 2 in that unit.
const L: u64 = 2977044471;
/// B, the unit for sine and cosine.
const B: u64 = 1 << 30;
/// H, a quarter turn in that unit.
const H: u64 = 1686629713;

/// The least argument of `ln`.
pub const LN_LEAST: f32 = 1e-30;

pub fn exp(x: f32) -> f32 {
    if x.is_nan() {
        return x;
    }
    assert!(x <= 0.0, "exp of {x}");
    if x < -87.0 {
        return 0.0;
    }
    // 24 digits times 2^32 are exact in f64.
    let q = (x.abs() as f64 * M as f64) as u64;
    let n = q / L;
    let f = q - n * L;
    let mut p = M;
    for j in (1..=12).rev() {
        p = M - (f * p / M) / j;
    }
    // P has at most 33 digits and the divisor is a power of two: only the last step rounds.
    (p as f64 / (M as f64 * power_of_two(n))) as f32
}

/// 2^n for n below 1,024.
fn power_of_two(n: u64) -> f64 {
    f64::from_bits((1023 + n) << 52)
}

/// Odd(Z), which gives A.
fn odd(z: u64) -> u64 {
    let w = z * z / M;
    let mut s = 0;
    for j in (0..=10).rev() {
        s = M / (2 * j + 1) + w * s / M;
    }
    2 * (z * s / M)
}

pub fn ln(v: f32) -> f32 {
    if v.is_nan() || v == f32::INFINITY {
        return v;
    }
    assert!(v >= LN_LEAST, "ln of {v}");
    // v = m * 2^(e - 23); everything from 1e-30 up is normal.
    let e = (v.to_bits() >> 23) as i64 - 127;
    let m = (v.to_bits() & 0x7F_FFFF | 0x80_0000) as u64;
    let z = (m - (1 << 23)) * M / (m + (1 << 23));
    // The sum has fewer than 53 digits: only the last step rounds.
    ((e * L as i64 + odd(z) as i64) as f64 / M as f64) as f32
}

pub fn ln_1p(t: f32) -> f32 {
    if t.is_nan() {
        return t;
    }
    assert!((0.0..=1.0).contains(&t), "ln_1p of {t}");
    let t = (t as f64 * M as f64) as u64;
    let z = 2 * ((t << 31) / ((1 << 33) + t));
    (odd(z) as f64 / M as f64) as f32
}

/// s of f and F.
fn sine(f: u64, ff: u64) -> i64 {
    let mut s = B;
    for j in (1..=8).rev() {
        s = B - (ff * s / B) / (2 * j * (2 * j + 1));
    }
    (f * s / B) as i64
}

/// c of F. It may end below 0.
fn cosine(ff: u64) -> i64 {
    let mut c = B as i64;
    for j in (1..=8).rev() {
        c = B as i64 - (ff as i64 * c / B as i64) / ((2 * j - 1) * 2 * j);
    }
    c
}

/// The sine of |p| and so many quarter turns more. A whole number has no negative zero.
fn wave(p: f64, quarters: u64) -> f64 {
    assert!(p.abs() < 512.0, "sine or cosine of {p}");
    let whole = (p.abs() * B as f64) as u64;
    let q = whole / H;
    let f = whole - q * H;
    let ff = f * f / B;
    let v = match (q + quarters) % 4 {
        0 => sine(f, ff),
        1 => cosine(ff),
        2 => -sine(f, ff),
        _ => -cosine(ff),
    };
    v as f64 / B as f64
}

pub fn sin(p: f64) -> f64 {
    if p.is_nan() {
        return p;
    }
    let v = wave(p, 0);
    // As a float: a zero sine becomes -0. p = -0 is not negative.
    if p < 0.0 { -v } else { v }
}

pub fn cos(p: f64) -> f64 {
    if p.is_nan() { p } else { wave(p, 1) }
}

/// 10^(3q/80) in f64, narrowed; `oracle_checks` holds that it lies too far from a tie for the
/// power's own error to matter.
pub fn gain(code: u32) -> f32 {
    assert!(code <= 3, "gain of code {code}");
    wide_gain(code) as f32
}

pub fn wide_gain(code: u32) -> f64 {
    10f64.powf(3.0 * code as f64 / 80.0)
}

pub fn max32(a: f32, b: f32) -> f32 {
    if b > a || a.is_nan() { b } else { a }
}

pub fn max64(a: f64, b: f64) -> f64 {
    if b > a || a.is_nan() { b } else { a }
}

/// A list longer than k becomes its first k by distance, then by place. A candidate's second number, the pilot's, rises
/// with its place.
pub fn keep_nearest(list: &mut Vec<(f32, u32)>, k: usize) {
    let nearer = |a: &(f32, u32), b: &(f32, u32)| a.0.total_cmp(&b.0).then(a.1.cmp(&b.1));
    list.select_nth_unstable_by(k - 1, nearer);
    list.truncate(k);
    list.sort_unstable_by(nearer);
}
