//! A stored question answered by the source, its stand-ins and the hardware.

use super::*;
use crate::bits::Bits;
use crate::oracle::phy::frame::{SEED_DATA, interleave_step, mix32, scramble};
use crate::standins;

pub fn answer(code: u8, a: u64, b: u64) -> u64 {
    let (x, y) = (f32::from_bits(a as u32), f32::from_bits(b as u32));
    let (p, q) = (f64::from_bits(a), f64::from_bits(b));
    match code {
        NARROW => (p as f32).bits(),
        SQRT32 => x.sqrt().bits(),
        SQRT64 => p.sqrt().bits(),
        MAX32 => standins::max32(x, y).bits(),
        MAX64 => standins::max64(p, q).bits(),
        EXP => standins::exp(x).bits(),
        LN => standins::ln(x).bits(),
        LN_1P => standins::ln_1p(x).bits(),
        SIN => standins::sin(p).bits(),
        COS => standins::cos(p).bits(),
        GAIN => standins::gain(a as u32).bits(),
        MIX32 => mix32(a as u32).bits(),
        SCRAMBLE => scramble(a as u32, b as usize) as u64,
        STEP => interleave_step(a as usize).bits(),
        SLOT => (interleave_step(a as usize) as u64 * b) % a,
        CLAMP32 => x.clamp(-y, y).bits(),
        ABS64 => p.abs().bits(),
        IS_FINITE32 => x.is_finite().bits(),
        SIGNED => signed(a as usize, y).bits(),
        _ => unreachable!("code {code:02X} is not in the list"),
    }
}

/// As the loop of refine has it.
fn signed(i: usize, v: f32) -> f32 {
    if scramble(SEED_DATA, i) == 1 { -v } else { v }
}
