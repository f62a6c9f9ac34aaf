//! mix32 and scramble against the source's.

use crate::inputs::seeded;
use crate::oracle::phy::frame::{SEED_DATA, SEED_HDR, mix32, scramble};
use crate::probes;
use crate::report::Tally;

const EACH: u64 = 1_000_000;
/// Words at both ends of 32 bits.
const EDGES: [u32; 8] = [0, 1, 2, 0x7FFF_FFFF, 0x8000_0000, 0x8000_0001, u32::MAX - 1, u32::MAX];

pub fn compare_mix() -> Tally {
    let mut t = Tally::new("mix32");
    let words = EDGES.into_iter().chain(0..EACH as u32).chain(seeded(60, EACH, |r| r.bits32()));
    t.each("mix32", words, probes::mix32, mix32);
    t
}

pub fn compare_scramble() -> Tally {
    let mut t = Tally::new("scramble");
    let mut same = |seed, i| {
        let expected = scramble(seed, i as usize) as u32;
        t.same("scramble", &[seed as u64, i as u64], probes::scramble(seed, i), expected);
    };
    for seed in [SEED_DATA, SEED_HDR] {
        EDGES.into_iter().chain(0..EACH as u32).for_each(|i| same(seed, i));
    }
    for (seed, i) in seeded(61, EACH, |r| (r.bits32(), r.bits32())) {
        same(seed, i);
    }
    t
}
