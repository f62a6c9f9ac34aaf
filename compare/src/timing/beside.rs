//! Ours and theirs by turns in one process, so that both meet the same machine: the least and the median of the runs.

use std::time::Instant;

const RUNS: usize = 31;

pub fn heading() {
    println!("{:<32} {:>10} {:>10} {:>7} {:>7}", "ns a call, by turns", "ours", "theirs", "least", "median");
}

/// The last two columns are ours over theirs. `before` are seconds of each of our runs that are not the calls'.
pub fn beside(name: &str, calls: u64, before: f64, mut ours: impl FnMut(), mut theirs: impl FnMut()) {
    let (mut a, mut b): (Vec<f64>, Vec<f64>) =
        (0..RUNS).map(|_| (taken(&mut ours) - before, taken(&mut theirs))).unzip();
    a.sort_by(f64::total_cmp);
    b.sort_by(f64::total_cmp);
    let (least, median) = (a[0] / b[0], a[RUNS / 2] / b[RUNS / 2]);
    let ns = 1e9 / calls as f64;
    println!("{name:<32} {:>10.1} {:>10.1} {least:>7.2} {median:>7.2}", a[0] * ns, b[0] * ns);
}

fn taken(round: &mut impl FnMut()) -> f64 {
    let start = Instant::now();
    round();
    start.elapsed().as_secs_f64()
}
