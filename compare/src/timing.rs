//! Each probe beside the hardware's or the source's function: same arguments, same run, the
//! least of several rounds. Neither is inlined: a probe is in a library of its own, the other
//! is called through a pointer that the compiler can't see through.

mod beside;
mod burst;
mod estimates;
mod likelihoods;
mod rows;

use std::hint::black_box;
use std::time::Instant;

use crate::bits::Bits;
use crate::inputs::seeded;
use crate::rng::Rng;

const ARGUMENTS: u64 = 20_000;
const ROUNDS: usize = 20;

pub fn print() {
    println!("{:<16} {:>10} {:>10} {:>7}", "ns a call", "ours", "theirs", "ratio");
    rows::print();
    burst::print();
    beside::heading();
    estimates::print();
    likelihoods::print();
}

fn arguments<A>(make: impl FnMut(&mut Rng) -> A) -> Vec<A> {
    seeded(90, ARGUMENTS, make).collect()
}

fn row<A: Copy, R: Bits>(name: &str, args: &[A], ours: impl Fn(A) -> R, theirs: fn(A) -> R) {
    let theirs = black_box(theirs);
    show(name, least(ARGUMENTS, || sum(args, &ours)), least(ARGUMENTS, || sum(args, &theirs)));
}

/// The answers' bits added up, so that no call can be dropped.
fn sum<A: Copy, R: Bits>(args: &[A], f: &impl Fn(A) -> R) -> u64 {
    args.iter().fold(0, |s: u64, &a| s.wrapping_add(f(a).bits()))
}

/// Nanoseconds a call in the fastest round.
fn least<R>(calls: u64, mut round: impl FnMut() -> R) -> f64 {
    let mut best = f64::INFINITY;
    for _ in 0..ROUNDS {
        let start = Instant::now();
        black_box(round());
        best = best.min(start.elapsed().as_secs_f64());
    }
    best * 1e9 / calls as f64
}

fn show(name: &str, ours: f64, theirs: f64) {
    println!("{name:<16} {ours:>10.2} {theirs:>10.2} {:>7.2}", ours / theirs);
}
