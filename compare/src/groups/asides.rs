//! The entries beside the refinement against est.rs, with document 01's causes on top: `fde`, `decide`, `channel_power` and the
//! single estimate. A call that is turned away writes nothing.

use super::bursts::fill;
use super::causes::{CHANGES, FINE, same};
use super::refinements::{burst, call};
use super::spreading::complex;
use crate::bits::Bits;
use crate::inputs::edges32;
use crate::oracle::burst::Burst;
use crate::oracle::dsp::Complex;
use crate::oracle::phy::Constellation;
use crate::oracle::phy::est::{self, Estimator};
use crate::oracle::phy::frame::{NC_MAX, Spreader};
use crate::probes::asides::{self, Symbol};
use crate::probes::refinements::Call;
use crate::report::Tally;
use crate::rng::Rng;
use crate::standins;

/// Every kind of number that is not finite, a NaN with a payload too.
const NOT_FINITE: [f32; 4] = [f32::NAN, f32::INFINITY, f32::NEG_INFINITY, f32::from_bits(0xFF80_0001)];

/// Finite numbers: usual, huge, subnormal, zeros among ones, of any size, and the edges.
const KINDS: &[fn(&mut Rng) -> f32] = &[
    |r| (4.0 * r.unit() - 2.0) as f32,
    |r| f32::from_bits(r.bits32() & 0x80FF_FFFF | 0x7E00_0000),
    |r| f32::from_bits(r.bits32() & 0x807F_FFFF),
    |r| r.pick(&[1.0, -1.0, 0.0, -0.0, 0.0]),
    any_finite,
    |r| Some(r.pick(&edges32())).filter(|x| x.is_finite()).unwrap_or(1.0),
];

fn any_finite(rng: &mut Rng) -> f32 {
    Some(rng.any32()).filter(|x| x.is_finite()).unwrap_or(-0.0)
}

// ---- fde

pub fn compare_fde() -> Tally {
    let mut t = Tally::new("fde");
    let mut rng = Rng::new(230);
    for m in 1..=NC_MAX {
        for i in 0..KINDS.len() * KINDS.len() * 3 {
            let (many, few) = (KINDS[i % KINDS.len()], KINDS[i / KINDS.len() % KINDS.len()]);
            equalize(&mut t, &symbol(&mut rng, m, |r| if r.bits32() & 7 == 0 { few(r) } else { many(r) }), 0);
        }
        not_finite(&mut t, &symbol(&mut rng, m, KINDS[0]));
    }
    for m in [0, 1, 2, 3, 54, 108, 109, 110, 200] {
        lengths(&mut t, &mut rng, m);
    }
    t
}

/// Variances are of either zero or above.
fn symbol(rng: &mut Rng, m: usize, kind: impl Fn(&mut Rng) -> f32) -> Symbol {
    let mut list = |n: usize| -> Vec<f32> { (0..n).map(|_| kind(rng)).collect() };
    let (y, h, v) = (list(2 * m), list(2 * m), list(m));
    let v = v.into_iter().map(|x| if x == 0.0 { x } else { x.abs() }).collect();
    let gain = if rng.bits32() & 1 == 0 { standins::gain(rng.bits32() & 3) } else { kind(rng) };
    Symbol { y, h, v, gain, z: (0..2 * m).map(|_| rng.any32()).collect() }
}

fn equalize(t: &mut Tally, s: &Symbol, cause: u32) {
    let mut ours = s.clone();
    let told = ours.fde();
    let args = [s.y.len() as u64, s.h.len() as u64, s.v.len() as u64, s.z.len() as u64, s.gain.bits()];
    t.same("cause", &args, told.number, cause);
    if cause != 0 {
        t.same("z as before", &args, same(&ours.z, &s.z), true);
        t.same("nothing told", &args, told.values == [0.0; 3], true);
        return;
    }
    let (y, h, mut z) = (complex(&s.y), complex(&s.h), vec![Complex::ZERO; s.v.len()]);
    let (mu, var) = est::fde(&y, &h, &s.v, s.gain, &mut z, &mut Spreader::new(s.v.len()));
    t.same("mean gain", &args, told.values[0], mu);
    t.same("variance", &args, told.values[1], var);
    let theirs = z.iter().flat_map(|z| [z.re, z.im]);
    ours.z.iter().zip(theirs).for_each(|(&v, e)| t.same("despread", &args, v, e));
}

/// A number in each place of each list, and the gain.
fn not_finite(t: &mut Tally, s: &Symbol) {
    let lists: [fn(&mut Symbol) -> &mut [f32]; 4] =
        [|s| &mut s.y, |s| &mut s.h, |s| &mut s.v, |s| std::slice::from_mut(&mut s.gain)];
    for (n, list) in lists.into_iter().enumerate() {
        let below = if n == 2 { &[-1.0, -f32::from_bits(1), -f32::MAX][..] } else { &[] };
        let mut s = s.clone();
        for i in 0..list(&mut s).len() {
            let old = list(&mut s)[i];
            for &x in NOT_FINITE.iter().chain(below) {
                list(&mut s)[i] = x;
                equalize(t, &s, 7);
            }
            list(&mut s)[i] = old;
        }
    }
}

/// Each list by up to two numbers shorter or longer, the others so too, and with a NaN besides: lengths come first.
fn lengths(t: &mut Tally, rng: &mut Rng, m: usize) {
    let s = symbol(rng, m + 2, KINDS[0]);
    let near = |n: usize| n.saturating_sub(2)..=n + 2;
    for v in near(m).chain([0]) {
        for y in near(2 * m).chain([0]) {
            for h in near(2 * m).chain([0]) {
                for z in near(2 * m).chain([0]) {
                    let mut s = s.clone();
                    s.y.truncate(y);
                    s.h.truncate(h);
                    s.v.truncate(v);
                    s.z.truncate(z);
                    let fits = (1..=NC_MAX).contains(&v) && [y, h, z] == [2 * v; 3];
                    equalize(t, &s, if fits { 0 } else { 5 });
                    s.gain = f32::NAN;
                    equalize(t, &s, if fits { 7 } else { 5 });
                }
            }
        }
    }
}

// ---- decide

pub fn compare_decide() -> Tally {
    let mut t = Tally::new("decide");
    let mut rng = Rng::new(231);
    let edges = edges32();
    for i in 0..edges.len().pow(4) {
        let at = |n| edges[i / edges.len().pow(n) % edges.len()];
        (0..=3).for_each(|code| decide(&mut t, code, [at(0), at(1), at(2), at(3)]));
    }
    for n in 0..2_000_000 {
        let code = rng.pick(&[0, 1, 2, 3, 0, 1, 2, 3, 4, 5, 255, 256, u32::MAX]);
        let (y, h) = (rng.pick(KINDS), rng.pick(KINDS));
        let mut yh = [y(&mut rng), y(&mut rng), h(&mut rng), h(&mut rng)];
        match n % 8 {
            0 => yh[rng.between(0, 4) as usize] = rng.pick(&NOT_FINITE),
            1 => halfway(&mut rng, code, &mut yh),
            _ => {}
        }
        decide(&mut t, code, yh);
    }
    t
}

/// y between two of the points, for distances that are equal or nearly.
fn halfway(rng: &mut Rng, code: u32, yh: &mut [f32; 4]) {
    let pts = Constellation::from_code(code.min(3) as u8).points();
    let pts = &pts.pts[..pts.count()];
    let y = Complex::new(yh[2], yh[3]) * (rng.pick(pts) + rng.pick(pts)).scale(0.5);
    (yh[0], yh[1]) = (y.re, y.im);
}

/// re and im of y, then of h.
fn decide(t: &mut Tally, code: u32, yh: [f32; 4]) {
    let told = asides::decide(code, yh);
    let args = [code as u64, yh[0].bits(), yh[1].bits(), yh[2].bits(), yh[3].bits()];
    let cause = if code > 3 {
        2
    } else if !yh.iter().all(|x| x.is_finite()) {
        7
    } else {
        0
    };
    t.same("cause", &args, told.number, cause);
    let expected = if cause == 0 {
        let (y, h) = (Complex::new(yh[0], yh[1]), Complex::new(yh[2], yh[3]));
        let x = est::decide(y, h, &Constellation::from_code(code as u8).points());
        [x.re, x.im]
    } else {
        [0.0; 2]
    };
    t.same("point, re", &args, told.values[0], expected[0]);
    t.same("point, im", &args, told.values[1], expected[1]);
}

// ---- bursts

/// A burst of each layout, constellation, pattern and spreading, thrice, one in three extreme; longer ones of each layout; and silence.
fn bursts(seed: u64, most: u64, long: u64) -> impl Iterator<Item = Burst> {
    let mut rng = Rng::new(seed);
    let heard = (0..3 * 144 + 18).map(move |n| {
        let nsym = if n < 3 * 144 { rng.between(1, most) } else { rng.between(most, long) };
        let shape = if n < 3 * 144 { n % 144 } else { n % 9 * 16 + rng.between(0, 16) as usize };
        burst(&mut rng, shape, nsym as u16, (n / 144 + n) % 3 == 2)
    });
    heard.chain((0..9).map(|layout| Burst::plain(layout, (layout % 4) as u8, 2)))
}

/// The estimator as the source makes it, with all pilots that refine loads and the burst's k.
fn loaded(b: &Burst) -> Estimator {
    let refined = b.refine().est;
    let mut e = Estimator::new(b.shape(), b.symbols());
    (e.pilots, e.start, e.k) = (refined.pilots, refined.start, refined.k);
    e
}

fn shown(b: &Burst) -> [u64; 5] {
    let flags = (b.sparse as u64) << 1 | b.spread as u64;
    [b.layout as u64, b.constellation as u64, flags, b.nsym as u64, b.k as u64]
}

/// Whether a burst has data cells among its pilots, so that both kinds are met.
#[derive(Default)]
struct Met {
    soft: bool,
    known: bool,
}

impl Met {
    fn add(&mut self, b: &Burst, e: &Estimator) {
        let (map, nc) = (b.map(), b.shape().nc);
        let known = (0..b.symbols()).flat_map(|g| (0..nc).map(move |c| (c, g))).filter(|&(c, g)| map.is_pilot(c, g));
        let soft = e.pilots.len() > known.count();
        self.soft |= soft;
        self.known |= !soft;
    }

    fn check(&self, t: &mut Tally) {
        t.same("bursts with soft pilots and without", &[], self.soft && self.known, true);
    }
}

/// Changes alone and in pairs, on a burst of each layout, and those that leave it accepted.
fn turned_away(t: &mut Tally, rng: &mut Rng, entry: impl Fn(&mut Tally, &mut Call, &[u64], u32)) {
    for layout in 0..9 {
        let mut b = Burst::plain(layout, (layout % 4) as u8, 1 + (layout % 2) as u16);
        (b.sparse, b.spread) = (layout & 2 != 0, layout & 4 != 0);
        fill(rng, &mut b, false);
        let c = call(rng, &b, 0);
        for (i, change) in FINE.iter().enumerate() {
            let mut c = c.clone();
            change(&mut c);
            entry(t, &mut c, &[layout as u64, i as u64], 0);
        }
        for (i, one) in CHANGES.iter().enumerate() {
            for (j, other) in CHANGES.iter().enumerate().filter(|(j, other)| *j == i || other.0 != one.0) {
                let mut c = c.clone();
                one.1(&mut c);
                if j != i {
                    other.1(&mut c);
                }
                entry(t, &mut c, &[layout as u64, i as u64, j as u64], one.0.min(other.0));
            }
        }
    }
}

/// Whether both lists of the work area are as they were.
fn work_kept(c: &Call, before: &Call) -> bool {
    same(&c.wf, &before.wf) && c.wu == before.wu
}

// ---- channel power

pub fn compare_power() -> Tally {
    let mut t = Tally::new("channel_power");
    let mut rng = Rng::new(232);
    let mut met = Met::default();
    for b in bursts(233, 7, 61).chain([burst(&mut Rng::new(234), 7 * 16 + 2, 1023, false)]) {
        let e = loaded(&b);
        met.add(&b, &e);
        let extra = rng.pick(&[0, 0, 1, 5]);
        let told = call(&mut rng, &b, extra).channel_power();
        t.same("cause", &shown(&b), told.number, 0);
        t.same("power", &shown(&b), told.values[0], e.channel_power());
    }
    met.check(&mut t);
    turned_away(&mut t, &mut rng, |t, c, args, cause| {
        let before = c.clone();
        let told = c.channel_power();
        t.same("cause", args, told.number, cause);
        t.same("as before", args, cause == 0 || told.values == [0.0; 3] && work_kept(c, &before), true);
    });
    t
}

// ---- single estimate

pub fn compare_single() -> Tally {
    let mut t = Tally::new("single estimate");
    let mut rng = Rng::new(235);
    let mut met = Met::default();
    for b in bursts(236, 3, 31) {
        let mut e = loaded(&b);
        met.add(&b, &e);
        places(&mut t, &mut rng, &b, &mut e);
    }
    met.check(&mut t);
    for place in [(0, 0), (usize::MAX, 0), (0, usize::MAX)] {
        turned_away(&mut t, &mut rng, |t, c, args, cause| {
            let cause = if cause == 0 && place != (0, 0) { 11 } else { cause };
            single(t, c, place, args, cause);
        });
    }
    t
}

/// Every cell of a small burst, some of a longer one, and places beyond the grid.
fn places(t: &mut Tally, rng: &mut Rng, b: &Burst, e: &mut Estimator) {
    let (nc, ng) = (b.shape().nc, b.symbols());
    let extra = rng.pick(&[0, 0, 1, 5]);
    let mut c = call(rng, b, extra);
    let step = if b.nsym < 3 { 1 } else { rng.between(20, 40) as usize };
    for j in (0..ng * nc).step_by(step) {
        let (carrier, symbol) = (j % nc, j / nc);
        let args: Vec<u64> = shown(b).into_iter().chain([carrier as u64, symbol as u64]).collect();
        let (h, error) = e.estimate(carrier, symbol, ng, b.p_h);
        let ours = single(t, &mut c, (carrier, symbol), &args, 0);
        ours.into_iter().zip([h.re, h.im, error]).for_each(|(v, e)| t.same("estimate", &args, v, e));
    }
    for past in [0, 1, 1 << 32, usize::MAX - ng.max(nc)] {
        let (c1, g1) = (nc + past, ng + past);
        for place in [(c1, 0), (c1, ng - 1), (0, g1), (nc - 1, g1), (c1, g1)] {
            single(t, &mut c, place, &shown(b), 11);
        }
    }
}

fn single(t: &mut Tally, c: &mut Call, (carrier, symbol): (usize, usize), args: &[u64], cause: u32) -> [f32; 3] {
    let before = (cause != 0).then(|| c.clone());
    let told = c.single_estimate(carrier, symbol);
    t.same("cause", args, told.number, cause);
    if let Some(before) = before {
        t.same("as before", args, told.values == [0.0; 3] && work_kept(c, &before), true);
    }
    told.values
}
