//! One case through the C functions, every byte held against the oracle's.

use crate::probes::records as probes;
use crate::report::Tally;

use super::expected::{answer, needed, shape};
use super::kinds::Case;

/// What both functions return and leave behind.
pub struct Outcome {
    /// `refine_record`, which has no channel list.
    pub alone: (u32, Vec<u8>),
    /// `refine_record_channel`.
    pub both: (u32, Vec<u8>, Vec<u8>),
    /// `record_bits`.
    pub bits: usize,
}

/// What the oracle answers; one refinement serves both functions.
pub fn expected(c: &Case) -> Outcome {
    let shape = shape(&c.record);
    let bits = shape.as_ref().map_or(0, |b| b.bits());
    let room = shape.is_ok_and(|b| c.channel.len() >= needed(&b).1);
    let unwritten = |number| (number, c.out.clone(), c.channel.clone());
    match answer(&c.record, |b| c.out.len() >= needed(b).0) {
        Err(n) => {
            // A channel list without room comes before the numbers.
            let both = unwritten(if n == 7 && !room { 6 } else { n });
            Outcome { alone: (n, c.out.clone()), both, bits }
        }
        Ok(a) => {
            let out = over(&c.out, &a.out);
            let both = if room { (0, out.clone(), over(&c.channel, &a.channel)) } else { unwritten(6) };
            Outcome { alone: (0, out), both, bits }
        }
    }
}

/// Bytes past the written ones are as they were.
fn over(old: &[u8], written: &[u8]) -> Vec<u8> {
    [written, &old[written.len()..]].concat()
}

/// What the library does. The outputs are of their exact lengths on the heap, so that a write past them would be seen.
pub fn called(c: &Case) -> Outcome {
    let record = c.record.clone().into_boxed_slice();
    let mut alone = c.out.clone().into_boxed_slice();
    let n = probes::refine(&record, &mut alone);
    let (mut out, mut channel) = (c.out.clone().into_boxed_slice(), c.channel.clone().into_boxed_slice());
    let m = probes::refine_channel(&record, &mut out, &mut channel);
    Outcome { alone: (n, alone.into()), both: (m, out.into(), channel.into()), bits: probes::bits(&record) }
}

pub fn compare(t: &mut Tally, args: &[u64], ours: &Outcome, theirs: &Outcome) {
    t.same("returned", args, ours.alone.0, theirs.alone.0);
    t.bytes("output", args, &ours.alone.1, &theirs.alone.1);
    t.same("returned with channel", args, ours.both.0, theirs.both.0);
    t.bytes("output with channel", args, &ours.both.1, &theirs.both.1);
    t.bytes("channel", args, &ours.both.2, &theirs.both.2);
    t.same("bits", args, ours.bits, theirs.bits);
}
