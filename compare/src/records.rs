//! Burst records through the C interface: laid out by document 01, answered by the oracle, and held byte for byte.

pub mod cases;
mod counts;
mod damage;
mod draft;
mod expected;
mod held;
mod kinds;
pub mod program;
mod run;
mod shapes;
pub mod stored;

use std::time::Instant;

use crate::report::{self, Tally};
use crate::rng::Rng;

/// Records of the default run, besides every damage and pair of damages for each layout.
const COUNT: u64 = 4_000;
const SEED: u64 = 1;
/// Records of the default run that the program prints.
const PRINTED: u64 = 300;

pub fn compare() -> Vec<Tally> {
    let mut run = run::run(SEED, COUNT, false);
    println!("{COUNT} records");
    run.counts.print();
    run.records.same("every answer met", &[], run.counts.all_met(), true);
    vec![run.records, damages(), stored::kept(), program::compare(PRINTED)]
}

/// Record i of the default run, and room for its answer and its estimates.
pub fn seeded(i: u64) -> (Vec<u8>, Vec<u8>, Vec<u8>) {
    let case = run::case(SEED, i).1;
    (case.record, case.out, case.channel)
}

/// `count` records from the seed, with lines on the way.
pub fn soak(count: u64, seed: u64) -> bool {
    let start = Instant::now();
    let run = run::run(seed, count, true);
    run.counts.print();
    run.records.print();
    run.beyond.print();
    let seconds = start.elapsed().as_secs_f64();
    println!("{count} records from seed {seed} in {seconds:.0} s, {:.0} a second", count as f64 / seconds);
    report::total(&[run.records, run.beyond])
}

/// Every cause alone and in pairs from different rows, for every layout: the upper row's number, and nothing written.
fn damages() -> Tally {
    let mut t = Tally::new("records, damaged");
    let mut rng = Rng::new(230);
    for layout in 0..9 {
        let shape = 16 * layout + [0, 5, 10, 15][layout % 4];
        let base = damage::trial(&mut rng, shapes::burst(shape, shapes::most_symbols(shape, true).min(2)));
        for (i, one) in damage::DAMAGES.iter().enumerate() {
            refused(&mut t, &mut rng, &base, one.1, &[layout as u64, i as u64], &[one]);
            for (j, other) in damage::DAMAGES.iter().enumerate() {
                if one.0 < other.0 {
                    let args = [layout as u64, i as u64, j as u64];
                    refused(&mut t, &mut rng, &base, one.1, &args, &[one, other]);
                    refused(&mut t, &mut rng, &base, one.1, &args, &[other, one]);
                }
            }
        }
    }
    t
}

fn refused(t: &mut Tally, rng: &mut Rng, base: &damage::Trial, number: u32, args: &[u64], damages: &[&damage::Damage]) {
    let mut trial = base.clone();
    damages.iter().for_each(|d| d.2(&mut trial));
    let c = trial.case(rng);
    let ours = held::called(&c);
    t.same("refused", args, ours.both.0, number);
    t.bytes("output", args, &ours.both.1, &c.out);
    t.bytes("channel", args, &ours.both.2, &c.channel);
    // Alone no channel list can be short; the oracle knows.
    held::compare(t, args, &ours, &held::expected(&c));
}
