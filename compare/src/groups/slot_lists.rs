//! to_slots and from_slots against the loops of refine: priors of any length, buffers longer
//! than needed with old contents, and refusals that leave the buffer alone.

use crate::oracle::phy::slots::{from_slots, to_slots};
use crate::probes;
use crate::report::Tally;
use crate::rng::Rng;

use super::burst_lengths::{self, LONGEST};

const SMALL: usize = 1_500;
const SAMPLED: usize = 20;

pub fn compare() -> Tally {
    let mut t = Tally::new("to_slots, from_slots");
    let mut rng = Rng::new(80);
    let lengths: Vec<usize> = burst_lengths::all().collect();
    for n in 1..=SMALL {
        both(&mut t, &mut rng, n);
    }
    for _ in 0..SAMPLED {
        let n = rng.pick(&lengths);
        both(&mut t, &mut rng, n);
    }
    both(&mut t, &mut rng, LONGEST);
    refusals(&mut t, &mut rng);
    t
}

fn both(t: &mut Tally, rng: &mut Rng, n: usize) {
    let exact = numbers(rng, n);
    let longer = n + rng.between(1, 40) as usize;
    let prior_length = rng.pick(&[0, n / 2, n - 1, n, n + 1, n + 100]);
    let prior = numbers(rng, prior_length);
    let slots = numbers(rng, longer);
    for old in [exact, numbers(rng, longer)] {
        one(t, "to_slots", n, &old, &to_slots(&prior, n), |out| probes::to_slots(&prior, n, out));
        one(t, "from_slots", n, &old, &from_slots(&slots, n), |out| probes::from_slots(&slots, n, out));
    }
}

/// The first n numbers are the source's, and those past n as they were.
fn one(t: &mut Tally, what: &str, n: usize, old: &[f32], expected: &[f32], call: impl Fn(&mut [f32]) -> u32) {
    let mut out = old.to_vec();
    t.same(what, &[n as u64], call(&mut out), 1);
    for (i, &v) in out.iter().enumerate() {
        let e = expected.get(i).copied().unwrap_or(old[i]);
        t.same(what, &[n as u64, old.len() as u64, i as u64], v, e);
    }
}

fn refusals(t: &mut Tally, rng: &mut Rng) {
    let list = numbers(rng, LONGEST + 10);
    for (n, room) in [(0, 0), (0, 8), (1, 0), (8, 7), (LONGEST, LONGEST - 1), (LONGEST + 1, LONGEST + 10)] {
        let old = numbers(rng, room);
        refused(t, "to_slots", n, &old, |out| probes::to_slots(&list, n, out));
        refused(t, "from_slots, short answer", n, &old, |out| probes::from_slots(&list, n, out));
        let old = numbers(rng, LONGEST + 10);
        refused(t, "from_slots, short slots", n, &old, |out| probes::from_slots(&list[..room], n, out));
    }
}

fn refused(t: &mut Tally, what: &str, n: usize, old: &[f32], call: impl Fn(&mut [f32]) -> u32) {
    let mut out = old.to_vec();
    t.same(what, &[n as u64], call(&mut out), 0);
    for (i, (&v, &e)) in out.iter().zip(old).enumerate() {
        t.same(what, &[n as u64, old.len() as u64, i as u64], v, e);
    }
}

/// Any f32, or a likelihood of the usual size.
fn numbers(rng: &mut Rng, n: usize) -> Vec<f32> {
    let mut one = || {
        let any = rng.any32();
        if rng.bits32() & 1 == 0 { any } else { (80.0 * rng.unit() - 40.0) as f32 }
    };
    (0..n).map(|_| one()).collect()
}
