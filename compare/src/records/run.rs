//! Many records by seed, two at a time, with the kinds in turn.

use std::sync::Mutex;
use std::sync::atomic::{AtomicBool, AtomicU64, Ordering};
use std::thread;
use std::time::{Duration, Instant};

use crate::groups::refinements::{Met, one};
use crate::oracle::burst::Burst;
use crate::report::Tally;
use crate::rng::Rng;

use super::counts::Counts;
use super::kinds::{Case, KINDS, ordinary};
use super::{held, shapes};

/// In a soak every so many records one burst over numbers comes besides, longer than a record can hold.
const BEYOND: u64 = 250;
const BETWEEN_LINES: Duration = Duration::from_secs(15);

/// What was compared: records, and bursts that no record holds.
pub struct Run {
    pub records: Tally,
    pub beyond: Tally,
    pub counts: Counts,
}

impl Run {
    fn new() -> Run {
        Run { records: Tally::new("records"), beyond: Tally::new("bursts beyond a record"), counts: Counts::default() }
    }

    fn add(&mut self, other: Run) {
        self.records.add(other.records);
        self.beyond.add(other.beyond);
        self.counts.add(other.counts);
    }
}

/// Case i of the seed: the same whatever ran before it.
pub fn case(seed: u64, i: u64) -> (&'static str, Case) {
    let (name, make) = KINDS[(i % KINDS.len() as u64) as usize];
    (name, make(&mut Rng::new(seed.wrapping_mul(0x9E37_79B9_7F4A_7C15) ^ i << 20)))
}

pub fn run(seed: u64, count: u64, soak: bool) -> Run {
    let (next, whole) = (AtomicU64::new(0), Mutex::new(Run::new()));
    let progress = Progress::new(count);
    let work = || {
        let mut own = Run::new();
        loop {
            let i = next.fetch_add(1, Ordering::Relaxed);
            if i >= count {
                return whole.lock().unwrap().add(own);
            }
            record(&mut own, seed, i);
            if soak {
                if i.is_multiple_of(BEYOND) {
                    beyond(&mut own.beyond, seed, i);
                }
                progress.note(i, &own);
            }
        }
    };
    thread::scope(|s| {
        s.spawn(work);
        s.spawn(work);
    });
    whole.into_inner().unwrap()
}

fn record(own: &mut Run, seed: u64, i: u64) {
    let (kind, c) = case(seed, i);
    let theirs = held::expected(&c);
    own.counts.note(kind, &c.record, theirs.both.0, &theirs.both.1);
    held::compare(&mut own.records, &[seed, i], &held::called(&c), &theirs);
}

fn beyond(t: &mut Tally, seed: u64, i: u64) {
    let mut rng = Rng::new(seed ^ i << 24);
    let shape = rng.between(0, shapes::SHAPES as u64) as usize;
    let most = shapes::most_symbols(shape, false) as u64;
    let mut b: Burst = shapes::burst(shape, (most + rng.between(1, 40)) as u16);
    ordinary(&mut rng, &mut b);
    one(t, &mut rng, &mut Met::default(), &b);
}

/// A line now and then.
struct Progress {
    count: u64,
    start: Instant,
    said: Mutex<Instant>,
    differs: AtomicBool,
}

impl Progress {
    fn new(count: u64) -> Progress {
        let start = Instant::now();
        Progress { count, start, said: Mutex::new(start), differs: AtomicBool::new(false) }
    }

    fn note(&self, i: u64, run: &Run) {
        if run.records.different + run.beyond.different > 0 {
            self.differs.store(true, Ordering::Relaxed);
        }
        let mut said = self.said.lock().unwrap();
        if said.elapsed() >= BETWEEN_LINES {
            *said = Instant::now();
            let rate = i as f64 / self.start.elapsed().as_secs_f64();
            let so_far = if self.differs.load(Ordering::Relaxed) { "DIFFERENCES" } else { "no difference" };
            println!("{i} of {} records, {rate:.0} a second, {so_far}", self.count);
        }
    }
}
