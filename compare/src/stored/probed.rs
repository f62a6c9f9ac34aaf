//! A stored question answered by the probes.

use super::*;
use crate::bits::Bits;
use crate::probes;

/// None for a code that is not in the list.
pub fn answer(code: u8, a: u64, b: u64) -> Option<u64> {
    let (x, y) = (f32::from_bits(a as u32), f32::from_bits(b as u32));
    let (p, q) = (f64::from_bits(a), f64::from_bits(b));
    Some(match code {
        NARROW => probes::narrow(p).bits(),
        SQRT32 => probes::sqrt32(x).bits(),
        SQRT64 => probes::sqrt64(p).bits(),
        MAX32 => probes::max32(x, y).bits(),
        MAX64 => probes::max64(p, q).bits(),
        EXP => probes::exp(x).bits(),
        LN => probes::ln(x).bits(),
        LN_1P => probes::ln_1p(x).bits(),
        SIN => probes::sin(p).bits(),
        COS => probes::cos(p).bits(),
        GAIN => probes::gain(a as u32).bits(),
        MIX32 => probes::mix32(a as u32).bits(),
        SCRAMBLE => probes::scramble(a as u32, b as u32).bits(),
        STEP => probes::interleave_step(a as usize).bits(),
        SLOT => probes::slot(a as usize, b as usize).bits(),
        CLAMP32 => probes::clamp32(x, -y, y).bits(),
        ABS64 => probes::abs64(p).bits(),
        IS_FINITE32 => probes::is_finite32(x).bits(),
        SIGNED => signed(a as usize, y)?.bits(),
        _ => return None,
    })
}

/// Read from the slot list of a burst that just holds bit i.
fn signed(i: usize, v: f32) -> Option<f32> {
    let n = i + 1;
    let mut prior = vec![0.0; n];
    prior[i] = v;
    let mut slots = vec![0.0; n];
    let done = probes::to_slots(&prior, n, &mut slots) == 1;
    slots.get(probes::slot(n, i)).copied().filter(|_| done)
}
