//! Records that are turned away: one cause or two, and beside them what is just accepted.

use crate::oracle::burst::Burst;
use crate::rng::Rng;

use super::draft::{Draft, LONGEST, Length};
use super::expected::needed;
use super::kinds::{Case, case as with_lengths, ordinary};
use super::shapes;

/// A draft, and the lengths of the outputs.
#[derive(Clone)]
pub struct Trial {
    pub draft: Draft,
    pub out: usize,
    pub channel: usize,
}

/// The row of document 01's table, counted from the top, the number it gives, and a change that brings it about.
pub type Damage = (usize, u32, fn(&mut Trial));

pub const DAMAGES: &[Damage] = &[
    (0, 12, |t| t.draft.padding = 1),
    (0, 12, |t| t.draft.padding = 2),
    (0, 12, |t| t.draft.padding = 3),
    (0, 12, |t| t.draft.length = Length::Set(0)),
    (0, 12, |t| t.draft.length = Length::Set(5)),
    (0, 12, |t| t.draft.length = Length::Set(LONGEST + 1)),
    (0, 12, |t| t.draft.length = Length::Set(LONGEST + 2)),
    (1, 1, |t| t.draft.layout = 9),
    (1, 1, |t| t.draft.layout = 12),
    (1, 1, |t| t.draft.layout = 15),
    (3, 3, |t| t.draft.nsym = 0),
    (4, 12, |t| t.draft.length = Length::Less(1)),
    (4, 12, |t| t.draft.length = Length::Less(4)),
    (4, 12, |t| t.draft.length = Length::More(1)),
    (4, 12, |t| t.draft.length = Length::More(4)),
    (4, 12, |t| t.draft.length = Length::Set(6)),
    (4, 12, |t| t.draft.length = Length::Set(LONGEST)),
    (4, 12, |t| t.draft.priors += 1),
    (4, 12, |t| t.draft.priors -= 1),
    (4, 12, |t| t.draft.priors |= 1 << 19),
    (4, 12, |t| t.draft.nsym = other(t.draft.nsym, 512)),
    (4, 12, |t| t.draft.nsym = other(t.draft.nsym, 1023)),
    (7, 6, |t| t.out = t.out.saturating_sub(1)),
    (7, 6, |t| t.out = 9),
    (7, 6, |t| t.out = 0),
    (7, 6, |t| t.channel = t.channel.saturating_sub(1)),
    (7, 6, |t| t.channel = 0),
    (8, 7, |t| t.draft.p_h = 0.0f32.to_bits()),
    (8, 7, |t| t.draft.p_h = (-0.0f32).to_bits()),
    (8, 7, |t| t.draft.p_h = (-1.0f32).to_bits()),
    (8, 7, |t| t.draft.p_h = INFINITY),
    (8, 7, |t| t.draft.p_h = NAN),
    (8, 7, |t| t.draft.boost = below(0.125)),
    (8, 7, |t| t.draft.boost = above(8.0)),
    (8, 7, |t| t.draft.boost = (-1.0f32).to_bits()),
    (8, 7, |t| t.draft.boost = INFINITY),
    (8, 7, |t| t.draft.boost = NAN),
    (8, 7, |t| t.draft.pilot_gain = below(0.125)),
    (8, 7, |t| t.draft.pilot_gain = above(8.0)),
    (8, 7, |t| t.draft.pilot_gain = (-0.0f32).to_bits()),
    (8, 7, |t| t.draft.pilot_gain = INFINITY | SIGN),
    (8, 7, |t| t.draft.pilot_gain = NAN),
    (8, 7, |t| first(&mut t.draft.carriers, SIGN | 1)),
    (8, 7, |t| last(&mut t.draft.carriers, INFINITY)),
    (8, 7, |t| last(&mut t.draft.carriers, NAN)),
    (8, 7, |t| first(&mut t.draft.cells, NAN)),
    (8, 7, |t| last(&mut t.draft.cells, SIGN | 1)),
    (8, 7, |t| last(&mut t.draft.cells, INFINITY)),
    (8, 7, |t| first(&mut t.draft.grid, NAN)),
    (8, 7, |t| last(&mut t.draft.grid, INFINITY)),
    (8, 7, |t| last(&mut t.draft.grid, INFINITY | SIGN)),
    (8, 7, |t| first(&mut t.draft.prior, NAN)),
    (8, 7, |t| last(&mut t.draft.prior, INFINITY)),
    (8, 7, |t| last(&mut t.draft.prior, INFINITY | SIGN)),
];

/// Changes that no row turns away.
const FINE: &[fn(&mut Trial)] = &[
    |_| {},
    |t| t.draft.boost = 0.125f32.to_bits(),
    |t| t.draft.boost = 8.0f32.to_bits(),
    |t| t.draft.pilot_gain = 0.125f32.to_bits(),
    |t| t.draft.pilot_gain = 8.0f32.to_bits(),
    |t| t.draft.p_h = 1,
    |t| t.draft.p_h = f32::MAX.to_bits(),
    |t| first(&mut t.draft.carriers, SIGN),
    |t| last(&mut t.draft.cells, SIGN),
    |t| t.draft.grid.fill(SIGN),
    |t| more_priors(&mut t.draft, NAN),
    |t| more_priors(&mut t.draft, INFINITY),
    |t| no_priors(&mut t.draft),
    |t| t.draft.k = 0,
    |t| t.draft.k = 63,
    |t| t.out += 1,
    |t| t.channel += 1,
];

const SIGN: u32 = 1 << 31;
const INFINITY: u32 = 0x7F80_0000;
const NAN: u32 = 0x7FC0_0000;
/// Quiet and signalling, least and greatest payload; each also with a sign.
const NANS: [u32; 6] = [0x7FC0_0000, 0x7FC0_0001, 0x7FFF_FFFF, 0x7F80_0001, 0x7FBF_FFFF, 0x7FA5_5A5A];

/// Another number of symbols; none stays none, which is a cause of its own.
fn other(nsym: u64, new: u64) -> u64 {
    if nsym == 0 { 0 } else { new }
}

fn below(x: f32) -> u32 {
    x.to_bits() - 1
}

fn above(x: f32) -> u32 {
    x.to_bits() + 1
}

fn first(list: &mut [u32], bits: u32) {
    *list.first_mut().expect("a number") = bits;
}

fn last(list: &mut [u32], bits: u32) {
    *list.last_mut().expect("a number") = bits;
}

fn more_priors(d: &mut Draft, bits: u32) {
    d.priors += 1;
    d.prior.push(bits);
}

fn no_priors(d: &mut Draft) {
    d.priors = 0;
    d.prior.clear();
}

/// Ordinary numbers, a prior for every bit, and outputs of the lengths needed.
pub fn trial(rng: &mut Rng, mut b: Burst) -> Trial {
    ordinary(rng, &mut b);
    b.k = rng.between(0, 11) as usize;
    let (out, channel) = needed(&b);
    Trial { draft: Draft::of(&b), out, channel }
}

fn any_trial(rng: &mut Rng) -> Trial {
    let b = shapes::any(rng, true);
    trial(rng, b)
}

impl Trial {
    pub fn case(&self, rng: &mut Rng) -> Case {
        with_lengths(rng, self.draft.bytes(), self.out, self.channel)
    }
}

/// So many of the causes, which may fall together.
pub fn case(rng: &mut Rng, causes: usize) -> Case {
    let mut t = any_trial(rng);
    (0..causes).for_each(|_| rng.pick(DAMAGES).2(&mut t));
    t.case(rng)
}

/// A NaN of any pattern at any number that is looked at, or at a prior past the bits.
pub fn not_a_number(rng: &mut Rng) -> Case {
    let mut t = any_trial(rng);
    let nan = rng.pick(&NANS) | rng.pick(&[0, SIGN]);
    let d = &mut t.draft;
    match rng.bits32() % 8 {
        0 => d.boost = nan,
        1 => d.pilot_gain = nan,
        2 => d.p_h = nan,
        3 => anywhere(rng, &mut d.carriers, nan),
        4 => anywhere(rng, &mut d.cells, nan),
        5 => anywhere(rng, &mut d.grid, nan),
        6 => anywhere(rng, &mut d.prior, nan),
        _ => more_priors(d, nan),
    }
    t.case(rng)
}

fn anywhere(rng: &mut Rng, list: &mut [u32], bits: u32) {
    list[rng.between(0, list.len() as u64) as usize] = bits;
}

pub fn edge(rng: &mut Rng) -> Case {
    let mut t = any_trial(rng);
    rng.pick(FINE)(&mut t);
    t.case(rng)
}
