//! Arguments that several groups share: the edges of the formats, and numbers beside a number.

use crate::rng::Rng;

/// Signed zeros, limits of the subnormals, units, limits of the format, infinities, NaN.
pub fn edges32() -> Vec<f32> {
    let sizes = [
        0x0000_0000, 0x0000_0001, 0x0000_0002, 0x007F_FFFF, 0x0080_0000, 0x0080_0001, 0x3DCC_CCCD, 0x3F00_0000,
        0x3F7F_FFFF, 0x3F80_0000, 0x3F80_0001, 0x4000_0000, 0x41F0_0000, 0x4220_0000, 0x7F7F_FFFE, 0x7F7F_FFFF,
        0x7F80_0000, 0x7F80_0001, 0x7FC0_0000, 0x7FFF_FFFF,
    ];
    let signed = |b: u32| [f32::from_bits(b), f32::from_bits(b | 1 << 31)];
    sizes.into_iter().flat_map(signed).collect()
}

/// The same for f64, with those of f32.
pub fn edges64() -> Vec<f64> {
    let own = [
        0x0000_0000_0000_0001, 0x000F_FFFF_FFFF_FFFF, 0x0010_0000_0000_0000, 0x3FEF_FFFF_FFFF_FFFF,
        0x3FF0_0000_0000_0001, 0x7FEF_FFFF_FFFF_FFFF, 0x7FF0_0000_0000_0001, 0x7FFF_FFFF_FFFF_FFFF,
    ];
    let mut list: Vec<f64> = own.into_iter().flat_map(|b| [f64::from_bits(b), f64::from_bits(b | 1 << 63)]).collect();
    list.extend(edges32().into_iter().map(f64::from));
    list
}

/// Halfway past each finite edge of f32, and beside it.
pub fn edge_ties() -> impl Iterator<Item = f64> {
    let finite = edges32().into_iter().filter(|x| x.is_finite());
    finite.flat_map(|x| beside64(tie_above(x), 1))
}

/// The numbers up to `reach` steps below and above x in the order of bit patterns.
pub fn beside32(x: f32, reach: i32) -> impl Iterator<Item = f32> {
    (-reach..=reach).map(move |d| f32::from_bits(x.to_bits().wrapping_add_signed(d)))
}

pub fn beside64(x: f64, reach: i64) -> impl Iterator<Item = f64> {
    (-reach..=reach).map(move |d| f64::from_bits(x.to_bits().wrapping_add_signed(d)))
}

/// Halfway between a finite f32 and the next one away from 0. Past the largest, the next one
/// would be 2^128.
pub fn tie_above(x: f32) -> f64 {
    let next = f32::from_bits(x.to_bits() + 1);
    let next = if next.is_infinite() { 2f64.powi(128).copysign(x as f64) } else { next as f64 };
    (x as f64 + next) / 2.0
}

/// A number with an exponent field from lo up to, and without, hi, and any sign.
pub fn with_exponent64(rng: &mut Rng, lo: u64, hi: u64) -> f64 {
    let e = rng.between(lo, hi) << 52;
    f64::from_bits(rng.bits64() & 0x800F_FFFF_FFFF_FFFF | e)
}

/// `count` numbers made one after the other.
pub fn seeded<T>(seed: u64, count: u64, mut make: impl FnMut(&mut Rng) -> T) -> impl Iterator<Item = T> {
    let mut rng = Rng::new(seed);
    (0..count).map(move |_| make(&mut rng))
}
