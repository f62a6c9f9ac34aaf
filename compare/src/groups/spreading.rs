//! Twiddle factors and both transforms for every length, over inputs of several kinds; what
//! lies past the m numbers stays as it was.

use crate::oracle::dsp::Complex;
use crate::oracle::phy::Constellation;
use crate::oracle::phy::frame::{NC_MAX, Spreader};
use crate::probes::spreading as probes;
use crate::report::Tally;
use crate::rng::Rng;

const ROUNDS: usize = 4;

pub fn compare() -> Tally {
    let mut t = Tally::new("spread");
    let mut rng = Rng::new(150);
    for m in 1..=NC_MAX {
        let mut source = Spreader::new(m);
        let tw = twiddles(&mut t, m, &source);
        for kind in KINDS {
            for _ in 0..ROUNDS {
                transforms(&mut t, &mut rng, m, *kind, &tw, &mut source);
            }
        }
        foreign(&mut t, &mut rng, m);
    }
    refusals(&mut t);
    t
}

/// Unit vectors, points, the usual sizes, huge, subnormal, anything, and infinities among ones.
const KINDS: &[fn(&mut Rng) -> f32] = &[
    |r| if r.bits32() & 7 == 0 { 1.0 } else { -0.0 },
    |r| r.pick(&Constellation::Qam64.unit_points()).re,
    |r| (4.0 * r.unit() - 2.0) as f32,
    |r| f32::from_bits(r.bits32() & 0x80FF_FFFF | 0x7E00_0000),
    |r| f32::from_bits(r.bits32() & 0x807F_FFFF),
    |r| r.any32(),
    |r| r.pick(&[1.0, -1.0, 1.0, -1.0, 0.0, f32::INFINITY, f32::NEG_INFINITY]),
];

fn twiddles(t: &mut Tally, m: usize, source: &Spreader) -> [f32; 218] {
    let mut tw = [7.0; 218];
    t.same("twiddles", &[m as u64], probes::twiddles(m, &mut tw), 1);
    let expected = source.tw.iter().flat_map(|w| [w.re, w.im]).chain([0.0; 218]);
    for (i, (&v, e)) in tw.iter().zip(expected).enumerate() {
        t.same("twiddles", &[m as u64, i as u64], v, e);
    }
    tw
}

/// 2 m numbers and a few past them.
fn numbers(rng: &mut Rng, m: usize, kind: fn(&mut Rng) -> f32) -> Vec<f32> {
    let past = rng.between(0, 4) as usize;
    (0..2 * m + past).map(|_| kind(rng)).collect()
}

fn transforms(
    t: &mut Tally,
    rng: &mut Rng,
    m: usize,
    kind: fn(&mut Rng) -> f32,
    tw: &[f32; 218],
    source: &mut Spreader,
) {
    let old = numbers(rng, m, kind);
    one(t, "forward", m, &old, |v| source.forward(v), |v| probes::spread(m, false, v));
    one(t, "inverse", m, &old, |v| source.inverse(v), |v| probes::spread(m, true, v));
    one(t, "forward, own factors", m, &old, |v| source.forward(v), |v| probes::forward(tw, m, v));
}

/// With factors of any size.
fn foreign(t: &mut Tally, rng: &mut Rng, m: usize) {
    for kind in KINDS {
        let tw: [f32; 218] = std::array::from_fn(|_| kind(rng));
        let mut source = Spreader::new(m);
        source.tw = complex(&tw[..2 * m]);
        let old = numbers(rng, m, KINDS[2]);
        one(t, "forward, any factors", m, &old, |v| source.forward(v), |v| probes::forward(&tw, m, v));
    }
}

pub fn complex(flat: &[f32]) -> Vec<Complex> {
    flat.chunks_exact(2).map(|z| Complex::new(z[0], z[1])).collect()
}

fn one(
    t: &mut Tally,
    what: &str,
    m: usize,
    old: &[f32],
    theirs: impl FnOnce(&mut [Complex]),
    ours: impl Fn(&mut [f32]) -> u32,
) {
    let mut expected = complex(&old[..2 * m]);
    theirs(&mut expected);
    let expected = expected.iter().flat_map(|z| [z.re, z.im]).chain(old[2 * m..].iter().copied());
    let mut v = old.to_vec();
    t.same(what, &[m as u64], ours(&mut v), 1);
    for (i, (&v, e)) in v.iter().zip(expected).enumerate() {
        t.same(what, &[m as u64, i as u64], v, e);
    }
}

fn refusals(t: &mut Tally) {
    let mut tw = [7.0; 218];
    for (m, room) in [(0, 4), (1, 1), (2, 3), (109, 217), (110, 220), (usize::MAX, 220)] {
        let mut v = [7.0f32; 220];
        let args = [m as u64, room as u64];
        t.same("forward, refused", &args, probes::spread(m, false, &mut v[..room]), 0);
        t.same("inverse, refused", &args, probes::spread(m, true, &mut v[..room]), 0);
        let done = probes::forward(&tw, m, &mut v[..room]);
        t.same("by factors, refused", &args, done, (m == 0) as u32);
        t.same("as before", &args, v == [7.0; 220], true);
    }
    for m in [0, 110, usize::MAX] {
        t.same("twiddles, refused", &[m as u64], probes::twiddles(m, &mut tw), 0);
        t.same("as before", &[m as u64], tw == [7.0; 218], true);
    }
}
