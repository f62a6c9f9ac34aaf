//! Calls that are turned away: every cause alone, and in pairs, where the first in the table's order is told. Nothing is written.

use super::bursts::fill;
use super::refinements::call;
use crate::oracle::burst::Burst;
use crate::probes::refinements::Call;
use crate::report::Tally;
use crate::rng::Rng;

/// A cause, and a change to an accepted call that brings it about.
type Change = (u32, fn(&mut Call));

/// On what every entry reads and on the work area.
pub const CHANGES: &[Change] = &[
    (1, |c| c.settings.layout = 9),
    (1, |c| c.settings.layout = 256),
    (1, |c| c.settings.layout = u32::MAX),
    (2, |c| c.settings.constellation = 4),
    (2, |c| c.settings.constellation = 256),
    (2, |c| c.settings.constellation = u32::MAX),
    (2, |c| c.settings.gain_code = 4),
    (2, |c| c.settings.gain_code = 256),
    (2, |c| c.settings.gain_code = u32::MAX),
    (3, |c| c.settings.nsym = 0),
    (3, |c| c.settings.nsym = 1024),
    (3, |c| c.settings.nsym += 1 << 32),
    (3, |c| c.settings.nsym = usize::MAX),
    (4, |c| shorten(&mut c.grid)),
    (4, |c| c.grid.push(0.0)),
    (4, |c| c.grid.clear()),
    (5, |c| shorten(&mut c.sigma)),
    (5, |c| c.sigma.push(1.0)),
    (5, |c| c.sigma.clear()),
    (5, |c| shorten(&mut c.cells)),
    (5, |c| c.cells.push(1.0)),
    (5, |c| c.cells.clear()),
    (6, |c| shorten(&mut c.wf)),
    (6, |c| c.wf.clear()),
    (6, |c| shorten(&mut c.wu)),
    (6, |c| c.wu.clear()),
    (7, |c| first(&mut c.grid, f32::NAN)),
    (7, |c| last(&mut c.grid, f32::INFINITY)),
    (7, |c| last(&mut c.grid, f32::NEG_INFINITY)),
    (7, |c| first(&mut c.sigma, f32::NAN)),
    (7, |c| last(&mut c.sigma, f32::INFINITY)),
    (7, |c| last(&mut c.sigma, f32::NEG_INFINITY)),
    (7, |c| last(&mut c.sigma, -1.0)),
    (7, |c| first(&mut c.sigma, -f32::from_bits(1))),
    (7, |c| first(&mut c.cells, f32::NAN)),
    (7, |c| last(&mut c.cells, f32::INFINITY)),
    (7, |c| last(&mut c.cells, f32::NEG_INFINITY)),
    (7, |c| last(&mut c.cells, -1.0)),
    (7, |c| first(&mut c.cells, -f32::from_bits(1))),
    (7, |c| first(&mut c.prior, f32::NAN)),
    (7, |c| last(&mut c.prior, f32::INFINITY)),
    (7, |c| last(&mut c.prior, f32::NEG_INFINITY)),
    (7, |c| c.settings.boost = 0.1249),
    (7, |c| c.settings.boost = 8.001),
    (7, |c| c.settings.boost = -1.0),
    (7, |c| c.settings.boost = f32::NAN),
    (7, |c| c.settings.boost = f32::INFINITY),
    (7, |c| c.settings.pilot_gain = 0.1249),
    (7, |c| c.settings.pilot_gain = 8.001),
    (7, |c| c.settings.pilot_gain = -1.0),
    (7, |c| c.settings.pilot_gain = f32::NAN),
    (7, |c| c.settings.pilot_gain = f32::INFINITY),
    (7, |c| c.settings.p_h = 0.0),
    (7, |c| c.settings.p_h = -0.0),
    (7, |c| c.settings.p_h = -1.0),
    (7, |c| c.settings.p_h = f32::NAN),
    (7, |c| c.settings.p_h = f32::INFINITY),
];

/// On the lists that only refine is lent.
const WRITTEN: &[Change] = &[
    (6, |c| shorten(&mut c.answer)),
    (6, |c| c.answer.clear()),
    (6, |c| shorten(&mut c.channel)),
    (6, |c| c.channel.clear()),
];

/// Changes that no row turns away.
pub const FINE: &[fn(&mut Call)] = &[
    |_| {},
    |c| c.settings.boost = 0.125,
    |c| c.settings.boost = 8.0,
    |c| c.settings.pilot_gain = 0.125,
    |c| c.settings.pilot_gain = 8.0,
    |c| c.settings.p_h = f32::from_bits(1),
    |c| c.settings.p_h = f32::MAX,
    |c| first(&mut c.sigma, -0.0),
    |c| last(&mut c.cells, -0.0),
    |c| c.prior.push(f32::NAN),
    |c| c.prior.clear(),
    |c| c.settings.k = usize::MAX,
];

fn shorten<T>(list: &mut Vec<T>) {
    list.pop();
}

fn first(list: &mut [f32], x: f32) {
    if let Some(v) = list.first_mut() {
        *v = x;
    }
}

fn last(list: &mut [f32], x: f32) {
    if let Some(v) = list.last_mut() {
        *v = x;
    }
}

pub fn compare() -> Tally {
    let mut t = Tally::new("causes");
    let mut rng = Rng::new(220);
    for layout in 0..9 {
        let mut b = Burst::plain(layout, (layout % 4) as u8, 1 + (layout % 2) as u16);
        (b.sparse, b.spread) = (layout & 2 != 0, layout & 4 != 0);
        fill(&mut rng, &mut b, false);
        let c = call(&mut rng, &b, 0);
        for (i, change) in FINE.iter().enumerate() {
            let mut c = c.clone();
            change(&mut c);
            t.same("accepted", &[layout as u64, i as u64], c.refine().number, 0);
        }
        let changes = || CHANGES.iter().chain(WRITTEN).enumerate();
        for (i, one) in changes() {
            refused(&mut t, &c, one.0, &[layout as u64, i as u64], &[one]);
            for (j, other) in changes() {
                if one.0 != other.0 {
                    refused(&mut t, &c, one.0.min(other.0), &[layout as u64, i as u64, j as u64], &[one, other]);
                }
            }
        }
    }
    t
}

/// The cause's number, and every list that is lent as it was.
fn refused(t: &mut Tally, accepted: &Call, number: u32, args: &[u64], changes: &[&Change]) {
    let mut c = accepted.clone();
    changes.iter().for_each(|change| change.1(&mut c));
    let before = c.clone();
    let r = c.refine();
    t.same("cause", args, r.number, number);
    t.same("answer", args, same(&c.answer, &before.answer), true);
    t.same("channel", args, same(&c.channel, &before.channel), true);
    t.same("wf", args, same(&c.wf, &before.wf), true);
    t.same("wu", args, c.wu == before.wu, true);
    t.same("nothing told", args, (r.fd, r.tm, r.spoilt, r.scale) == (0, 0, 0, 0.0), true);
}

/// Bit for bit, every NaN its own.
pub fn same(a: &[f32], b: &[f32]) -> bool {
    a.len() == b.len() && a.iter().zip(b).all(|(x, y)| x.to_bits() == y.to_bits())
}
