//! The comparison, one file a group. A new group is a file here and a line in `ALL`.

mod asides;
pub mod burst_lengths;
pub mod bursts;
mod causes;
mod choices;
mod estimates;
mod exponential;
mod gain;
mod headers;
mod known;
mod layouts;
mod likelihoods;
mod logarithms;
mod mix;
mod models;
mod narrow;
mod pilots;
mod points;
pub mod refinements;
mod roots;
mod slot_lists;
mod slots;
mod soft_points;
mod softness;
mod spreading;
mod steps;
mod waves;

use std::sync::Mutex;
use std::sync::atomic::{AtomicUsize, Ordering};
use std::thread;

use crate::report::Tally;

pub use burst_lengths::LONGEST;

const ALL: &[fn() -> Tally] = &[
    narrow::compare,
    roots::compare32,
    roots::compare64,
    choices::compare,
    exponential::compare,
    logarithms::compare_ln,
    logarithms::compare_ln_1p,
    waves::compare_sin,
    waves::compare_cos,
    gain::compare,
    mix::compare_mix,
    mix::compare_scramble,
    steps::compare,
    slots::compare,
    slot_lists::compare,
    layouts::compare_pilots,
    layouts::compare_carriers,
    known::compare,
    points::compare,
    soft_points::compare,
    softness::compare_softplus,
    softness::compare_loud,
    spreading::compare,
    pilots::compare,
    estimates::compare,
    models::compare,
    likelihoods::compare,
    refinements::compare,
    causes::compare,
    headers::compare_crc,
    headers::compare_written,
    headers::compare_parsed,
    asides::compare_fde,
    asides::compare_decide,
    asides::compare_power,
    asides::compare_single,
    crate::stack::compare,
];

/// Runs every group, two at a time, and answers them in their order.
pub fn run() -> Vec<Tally> {
    let next = AtomicUsize::new(0);
    let done = Mutex::new(Vec::new());
    let work = || {
        loop {
            let i = next.fetch_add(1, Ordering::Relaxed);
            let Some(group) = ALL.get(i) else { return };
            let tally = group();
            done.lock().unwrap().push((i, tally));
        }
    };
    thread::scope(|s| {
        s.spawn(work);
        s.spawn(work);
    });
    let mut done = done.into_inner().unwrap();
    done.sort_by_key(|d| d.0);
    done.into_iter().map(|d| d.1).collect()
}
