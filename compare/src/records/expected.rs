//! What the oracle answers to a record: document 01's rows from the top, then the source's refinement in bytes.

use crate::bits::Bits;
use crate::oracle::Refined;
use crate::oracle::burst::Burst;
use crate::oracle::phy::frame::LAYOUTS;

use super::draft::LONGEST;

/// The answer to an accepted record.
pub struct Answer {
    pub out: Vec<u8>,
    pub channel: Vec<u8>,
    pub burst: Burst,
    pub refined: Refined,
}

/// `room` says whether the outputs are long enough for the burst.
pub fn answer(record: &[u8], room: impl Fn(&Burst) -> bool) -> Result<Answer, u32> {
    let burst = shape(record)?;
    if !room(&burst) {
        return Err(6);
    }
    if !numbers_accepted(&burst) {
        return Err(7);
    }
    let refined = burst.refine();
    let (out, channel) = (answer_bytes(&refined), bytes(&refined.channel()));
    Ok(Answer { out, channel, burst, refined })
}

/// Bytes of the answer, and of the estimates.
pub fn needed(b: &Burst) -> (usize, usize) {
    (10 + 4 * b.bits(), 12 * b.cells())
}

/// The rows up to the record's length.
pub fn shape(record: &[u8]) -> Result<Burst, u32> {
    if record.len() < 6 || record.len() > LONGEST || record[5] & 3 != 0 {
        return Err(12);
    }
    let head = record[..6].iter().fold(0, |h: u64, &b| h << 8 | b as u64);
    let field = |top: u32, width: u32| head >> (48 - top - width) & ((1 << width) - 1);
    let (layout, nsym) = (field(0, 4) as usize, field(6, 10) as u16);
    if layout >= LAYOUTS.len() {
        return Err(1);
    }
    if nsym == 0 {
        return Err(3);
    }
    let mut b = Burst::plain(layout, field(4, 2) as u8, nsym);
    (b.sparse, b.spread) = (field(16, 1) == 1, field(17, 1) == 1);
    (b.gain_code, b.k) = (field(18, 2) as u8, field(20, 6) as usize);
    b.prior = vec![0.0; field(26, 20) as usize];
    b.cell_variances = vec![0.0; b.cells()];
    if record.len() != 6 + 4 * super::draft::numbers(&b) {
        return Err(12);
    }
    let mut words = record[6..].chunks_exact(4).map(|w| f32::from_bits(u32::from_be_bytes(w.try_into().unwrap())));
    let mut next = || words.next().unwrap();
    (b.boost, b.pilot_gain, b.p_h) = (next(), next(), next());
    for list in [&mut b.carrier_variances, &mut b.cell_variances, &mut b.grid, &mut b.prior] {
        list.iter_mut().for_each(|x| *x = next());
    }
    Ok(b)
}

/// The row on numbers; of the priors only those of the burst's bits are looked at.
fn numbers_accepted(b: &Burst) -> bool {
    let variance = |v: &f32| v.is_finite() && *v >= 0.0;
    let amplitude = |a: f32| (0.125..=8.0).contains(&a);
    b.carrier_variances.iter().all(variance)
        && b.cell_variances.iter().all(variance)
        && b.grid.iter().all(|y| y.is_finite())
        && b.prior.iter().take(b.bits()).all(|v| v.is_finite())
        && (b.p_h.is_finite() && b.p_h > 0.0)
        && (amplitude(b.boost) && amplitude(b.pilot_gain))
}

fn answer_bytes(r: &Refined) -> Vec<u8> {
    let mut out = vec![r.est.index.0 as u8, r.est.index.1 as u8];
    out.extend(bytes(&[r.est.mse_scale]));
    out.extend((r.spoilt() as u32).to_be_bytes());
    out.extend(bytes(&r.llrs));
    out
}

/// Every NaN has one pattern; a zero keeps its sign.
fn bytes(list: &[f32]) -> Vec<u8> {
    list.iter().flat_map(|x| (x.bits() as u32).to_be_bytes()).collect()
}
