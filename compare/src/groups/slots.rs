//! The slot of each bit against a * i mod n, and every slot once.

use crate::oracle::phy::frame::interleave_step;
use crate::probes;
use crate::report::Tally;
use crate::rng::Rng;

use super::burst_lengths::{self, LONGEST};

const SAMPLED: usize = 30;

pub fn compare() -> Tally {
    let mut t = Tally::new("slot");
    let lengths: Vec<usize> = burst_lengths::all().collect();
    let mut rng = Rng::new(70);
    for n in 1..=600 {
        whole_burst(&mut t, n);
    }
    for _ in 0..SAMPLED {
        whole_burst(&mut t, rng.pick(&lengths));
    }
    whole_burst(&mut t, LONGEST);
    t
}

fn whole_burst(t: &mut Tally, n: usize) {
    let a = interleave_step(n) as u64;
    let mut taken = vec![0u32; n];
    for i in 0..n {
        let s = probes::slot(n, i);
        t.same("slot", &[n as u64, i as u64], s, (a * i as u64 % n as u64) as usize);
        if let Some(count) = taken.get_mut(s) {
            *count += 1;
        }
    }
    for (s, count) in taken.into_iter().enumerate() {
        t.same("times taken", &[n as u64, s as u64], count, 1);
    }
}
