//! The fixed list of questions: for each function its edges, then seeded arguments.

use std::collections::HashSet;

use super::*;
use crate::bits::Bits;
use crate::groups::{LONGEST, burst_lengths};
use crate::inputs::{beside32, beside64, edge_ties, edges32, edges64, tie_above, with_exponent64};
use crate::oracle::phy::frame::{SEED_DATA, SEED_HDR};
use crate::rng::Rng;
use crate::standins::LN_LEAST;

/// Seeded arguments a function and kind.
const EACH: usize = 50;

type Question = (u8, u64, u64);

struct List {
    rng: Rng,
    questions: Vec<Question>,
}

impl List {
    fn ones<A: Bits>(&mut self, code: u8, args: impl IntoIterator<Item = A>) {
        self.questions.extend(args.into_iter().map(|a| (code, a.bits(), 0)));
    }

    fn pairs<A: Bits, B: Bits>(&mut self, code: u8, args: impl IntoIterator<Item = (A, B)>) {
        self.questions.extend(args.into_iter().map(|(a, b)| (code, a.bits(), b.bits())));
    }

    fn seeded<A>(&mut self, make: impl Fn(&mut Rng) -> A) -> Vec<A> {
        (0..EACH).map(|_| make(&mut self.rng)).collect()
    }
}

pub fn questions() -> Vec<Question> {
    let mut list = List { rng: Rng::new(0x10F), questions: Vec::new() };
    for part in [narrowing, roots, choices, clamps, exponential, logarithms, waves, words, slots, signs] {
        part(&mut list);
    }
    // The edges have several NaN, which are one question.
    let mut asked = HashSet::new();
    list.questions.retain(|q| asked.insert(*q));
    list.questions
}

fn narrowing(l: &mut List) {
    l.ones(NARROW, edges64());
    l.ones(NARROW, edge_ties());
    let near = l.seeded(|r| with_exponent64(r, 868, 1153));
    l.ones(NARROW, near);
    let ties = l.seeded(|r| tie_above(f32::from_bits(r.bits32() & 0xBFFF_FFFF)));
    l.ones(NARROW, ties.into_iter().flat_map(|x| beside64(x, 1)));
}

fn roots(l: &mut List) {
    l.ones(SQRT32, edges32());
    let any = l.seeded(|r| f32::from_bits(r.bits32() >> 1));
    l.ones(SQRT32, any);
    let squares = l.seeded(|r| (r.bits32() >> 20).pow(2) as f32);
    l.ones(SQRT32, squares.into_iter().flat_map(|x| beside32(x, 1)));
    l.ones(SQRT64, edges64());
    let any = l.seeded(|r| f64::from_bits(r.bits64() >> 1));
    l.ones(SQRT64, any);
    let squares = l.seeded(|r| (r.bits64() >> 38).pow(2) as f64);
    l.ones(SQRT64, squares.into_iter().flat_map(|x| beside64(x, 1)));
}

fn choices(l: &mut List) {
    let some = [0.0, -0.0, 1.0, -1.0, f32::INFINITY, f32::NEG_INFINITY, f32::NAN];
    let edges = || some.into_iter().flat_map(|a| some.map(|b| (a, b)));
    l.pairs(MAX32, edges());
    let any = l.seeded(|r| (r.any32(), r.any32()));
    l.pairs(MAX32, any);
    l.pairs(MAX64, edges().map(|(a, b)| (a as f64, b as f64)));
    let any = l.seeded(|r| (r.any64(), r.any64()));
    l.pairs(MAX64, any);
    l.ones(ABS64, edges64());
    l.ones(IS_FINITE32, edges32());
    let any = l.seeded(|r| r.any32());
    l.ones(IS_FINITE32, any);
}

fn clamps(l: &mut List) {
    for limit in [30f32, 40.0] {
        let around = beside32(limit, 2).chain(beside32(-limit, 2));
        l.pairs(CLAMP32, edges32().into_iter().chain(around).map(|x| (x, limit)));
        let within = l.seeded(|r| ((r.unit() * 100.0 - 50.0) as f32, limit));
        l.pairs(CLAMP32, within);
    }
}

/// The edges of f32 that are in a domain, and NaN.
fn edges_within(keep: impl Fn(f32) -> bool) -> impl Iterator<Item = f32> {
    edges32().into_iter().filter(move |&x| x.is_nan() || keep(x))
}

fn exponential(l: &mut List) {
    l.ones(EXP, edges_within(|x| x <= 0.0));
    l.ones(EXP, beside32(-87.0, 2).chain([-88.0]));
    let any = l.seeded(|r| (-88.0 * r.unit()) as f32);
    l.ones(EXP, any);
}

fn logarithms(l: &mut List) {
    let least = LN_LEAST.to_bits();
    l.ones(LN, edges_within(|x| x >= LN_LEAST));
    l.ones(LN, (least..least + 3).map(f32::from_bits));
    let any = l.seeded(|r| f32::from_bits(r.between(least as u64, 0x7F80_0000) as u32));
    l.ones(LN, any);
    l.ones(LN_1P, edges_within(|x| (0.0..=1.0).contains(&x)));
    let any = l.seeded(|r| r.unit() as f32);
    l.ones(LN_1P, any);
    l.ones(GAIN, 0..=3u32);
}

fn waves(l: &mut List) {
    let last = f64::from_bits(512f64.to_bits() - 1);
    for code in [SIN, COS] {
        l.ones(code, edges64().into_iter().filter(|x| x.is_nan() || x.abs() < 512.0));
        l.ones(code, [last, -last]);
        let any = l.seeded(|r| 1024.0 * r.unit() - 512.0);
        l.ones(code, any);
        let small = l.seeded(|r| 8.0 * r.unit() - 4.0);
        l.ones(code, small);
    }
}

fn words(l: &mut List) {
    l.ones(MIX32, [0, 1, 0x8000_0000, u32::MAX]);
    let any = l.seeded(|r| r.bits32());
    l.ones(MIX32, any);
    for seed in [SEED_DATA, SEED_HDR] {
        l.pairs(SCRAMBLE, [0, 1, LONGEST as u32, u32::MAX].map(|i| (seed, i)));
        let any = l.seeded(|r| (seed, r.bits32()));
        l.pairs(SCRAMBLE, any);
    }
}

fn slots(l: &mut List) {
    let lengths: Vec<usize> = burst_lengths::all().collect();
    l.ones(STEP, 0..=12usize);
    l.ones(STEP, [LONGEST]);
    let sampled = l.seeded(|r| r.pick(&lengths));
    l.ones(STEP, sampled);
    l.pairs(SLOT, (0..6).map(|i| (6usize, i as usize)));
    l.pairs(SLOT, [(1usize, 0usize), (LONGEST, 0), (LONGEST, LONGEST - 1)]);
    let sampled = l.seeded(|r| {
        let n = r.pick(&lengths);
        (n, r.between(0, n as u64) as usize)
    });
    l.pairs(SLOT, sampled);
}

/// Bit 0 is negated, bits 2 and the last are not.
fn signs(l: &mut List) {
    for i in [0, 2, LONGEST - 1] {
        l.pairs(SIGNED, [0.0, -0.0, 1.0, f32::INFINITY, f32::NAN].map(|v| (i, v)));
    }
    let any = l.seeded(|r| (r.between(0, 5000) as usize, r.any32()));
    l.pairs(SIGNED, any);
}
