//! Records of every kind, each from its own seed.

use crate::groups::bursts;
use crate::heard;
use crate::oracle::burst::Burst;
use crate::rng::Rng;

use super::damage;
use super::draft::{Draft, LONGEST, Length, MOST, numbers};
use super::expected::needed;
use super::shapes;

/// A call: the record, and the outputs with their old contents.
#[derive(Clone)]
pub struct Case {
    pub record: Vec<u8>,
    pub out: Vec<u8>,
    pub channel: Vec<u8>,
}

/// A kind, and one case of it.
pub type Kind = (&'static str, fn(&mut Rng) -> Case);

pub const KINDS: &[Kind] = &[
    ("ordinary", |r| accepted(r, ordinary)),
    ("damaged once", |r| damage::case(r, 1)),
    ("heard", |r| accepted(r, heard)),
    ("damaged twice", |r| damage::case(r, 2)),
    ("extreme", |r| accepted(r, extreme)),
    ("short output", short_output),
    ("any finite", |r| accepted(r, any_finite)),
    ("not a number", damage::not_a_number),
    ("at the edge", damage::edge),
    ("any length", any_length),
    ("longest", longest),
    ("any bytes", any_bytes),
];

/// Outputs as long as needed or longer.
fn accepted(rng: &mut Rng, fill: fn(&mut Rng, &mut Burst)) -> Case {
    let every_prior = rng.bits32() & 1 == 0;
    let mut b = shapes::any(rng, every_prior);
    fill(rng, &mut b);
    settle(rng, &mut b);
    let ((n, m), more) = (needed(&b), [0, 0, 1, 7, 40]);
    let (n, m) = (n + rng.pick(&more), m + rng.pick(&more));
    case(rng, Draft::of(&b).bytes(), n, m)
}

pub fn case(rng: &mut Rng, record: Vec<u8>, out: usize, channel: usize) -> Case {
    Case { record, out: bytes(rng, out), channel: bytes(rng, channel) }
}

fn bytes(rng: &mut Rng, n: usize) -> Vec<u8> {
    (0..n).map(|_| rng.bits32() as u8).collect()
}

pub fn ordinary(rng: &mut Rng, b: &mut Burst) {
    bursts::fill(rng, b, false);
}

pub fn heard(rng: &mut Rng, b: &mut Burst) {
    b.gain_code = rng.between(0, 4) as u8;
    (b.boost, b.pilot_gain) = (rng.pick(&[1.0, 1.4]), b.header().mode.gain());
    let sure = rng.pick(&[0.3, 2.5, 8.0]);
    heard::fill(rng, b, sure);
}

/// Some numbers as far as they go, in some bursts nearly all.
pub fn extreme(rng: &mut Rng, b: &mut Burst) {
    bursts::fill(rng, b, true);
    const FAR: [f32; 10] = [f32::MAX, -f32::MAX, 1e30, -1e19, 1e-38, -1e-44, 0.0, -0.0, f32::MIN_POSITIVE, 1.0];
    let often = rng.pick(&[1, 2, 16, 1000]);
    let far = |rng: &mut Rng, x: f32| if rng.bits32().is_multiple_of(often) { rng.pick(&FAR) } else { x };
    for list in [&mut b.carrier_variances, &mut b.cell_variances] {
        list.iter_mut().for_each(|v| *v = far(rng, *v).abs());
    }
    for list in [&mut b.grid, &mut b.prior] {
        list.iter_mut().for_each(|v| *v = far(rng, *v));
    }
    b.carrier_variances[0] = rng.pick(&[b.carrier_variances[0], -0.0]);
    b.cell_variances[0] = rng.pick(&[b.cell_variances[0], -0.0]);
}

/// Every finite pattern.
pub fn any_finite(rng: &mut Rng, b: &mut Burst) {
    bursts::fill(rng, b, false);
    b.p_h = finite(rng).abs().max(f32::from_bits(1));
    for list in [&mut b.carrier_variances, &mut b.cell_variances] {
        list.iter_mut().for_each(|v| *v = finite(rng).abs());
    }
    for list in [&mut b.grid, &mut b.prior] {
        list.iter_mut().for_each(|v| *v = finite(rng));
    }
}

fn finite(rng: &mut Rng) -> f32 {
    loop {
        let x = rng.any32();
        if x.is_finite() {
            return x;
        }
    }
}

/// k mostly small, which is quick; and how many priors the record has.
pub fn settle(rng: &mut Rng, b: &mut Burst) {
    let below = rng.pick(&[11, 11, 11, 64]);
    b.k = rng.between(0, below) as usize;
    let bits = b.bits();
    match rng.bits32() % 6 {
        0 => b.prior.clear(),
        1 => b.prior.truncate(rng.between(0, bits as u64) as usize),
        2 => b.prior.truncate(bits - 1),
        // Past the burst's bits anything may stand.
        3 => b.prior.extend([f32::NAN, 1.0, f32::INFINITY, f32::from_bits(0xFF80_0001)]),
        _ => {}
    }
    let room = MOST - (numbers(b) - b.prior.len());
    b.prior.truncate(room);
}

fn short_output(rng: &mut Rng) -> Case {
    let mut c = accepted(rng, ordinary);
    let (out, channel) = (c.out.len(), c.channel.len());
    match rng.bits32() % 4 {
        // The lists may be longer than needed by up to 40.
        0 => c.out.truncate(rng.pick(&[0, 1, 9, 10, out.saturating_sub(41)])),
        1 => c.channel.truncate(rng.pick(&[0, 11, 12, channel.saturating_sub(41)])),
        2 => exact(&mut c, 1, 0),
        _ => exact(&mut c, 0, 1),
    }
    c
}

/// Outputs short of what is needed by so many bytes.
fn exact(c: &mut Case, out: usize, channel: usize) {
    let b = super::expected::shape(&c.record).expect("an accepted shape");
    let (n, m) = needed(&b);
    c.out.truncate(n - out);
    c.channel.truncate(m - channel);
}

/// An accepted record made shorter or longer.
fn any_length(rng: &mut Rng) -> Case {
    let mut c = accepted(rng, ordinary);
    let n = c.record.len();
    let lengths = [0, 1, 5, 6, 7, 10, n - 4, n - 1, n + 1, n + 4, LONGEST - 2, LONGEST, LONGEST + 1, 3 * LONGEST];
    let length = rng.pick(&lengths);
    c.record.resize(length, 0);
    c
}

/// Priors up to the last byte that a record may have, and one number more.
fn longest(rng: &mut Rng) -> Case {
    let mut b = shapes::any(rng, false);
    ordinary(rng, &mut b);
    b.k = rng.between(0, 11) as usize;
    let room = MOST - (numbers(&b) - b.prior.len()) + usize::from(rng.bits32().is_multiple_of(4));
    b.prior.resize(room, 0.5);
    let mut d = Draft::of(&b);
    d.length = rng.pick(&[Length::Own, Length::Own, Length::Own, Length::Set(LONGEST), Length::Set(LONGEST + 1)]);
    let (n, m) = needed(&b);
    case(rng, d.bytes(), n, m)
}

/// Nothing laid out, or any bytes for the numbers of a shape.
fn any_bytes(rng: &mut Rng) -> Case {
    let most = rng.pick(&[8, 40, 3000, LONGEST as u64 + 9]);
    let length = rng.between(0, most) as usize;
    let mut record = bytes(rng, length);
    if rng.bits32() & 1 == 0 {
        let laid = Draft::of(&shapes::any(rng, false)).bytes();
        record.resize(laid.len(), 255);
        record[..6].copy_from_slice(&laid[..6]);
    }
    case(rng, record, 16_354, 8_172)
}
