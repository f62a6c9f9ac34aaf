//! The known value of every cell, with several gains and boosts, and refusals.

use crate::bits::Bits;
use crate::oracle::phy::rx::known;
use crate::probes::cells;
use crate::report::Tally;

use super::layouts::{Pattern, patterns};

/// Gain and boost.
const SETTINGS: [(f32, f32); 9] = [
    (1.0, 1.0),
    (0.125, 8.0),
    (8.0, 0.125),
    (0.75, 1.2589254),
    (1.0902, 0.3),
    (-0.0, 1e-40),
    (1e-45, f32::MAX),
    (f32::MAX, f32::INFINITY),
    (f32::NAN, f32::NAN),
];

pub fn compare() -> Tally {
    let mut t = Tally::new("known");
    for p in patterns() {
        for (gain, boost) in SETTINGS {
            whole(&mut t, &p, gain, boost);
        }
        refusals(&mut t, &p);
    }
    t
}

/// The header, the first data symbols, the last ones, and the largest g that is taken.
fn whole(t: &mut Tally, p: &Pattern, gain: f32, boost: f32) {
    let mut map = p.map.with_gain(gain);
    map.boost = boost;
    for g in (0..=140).chain(p.end() - 10..=p.end()).chain(65_530..=65_535) {
        for c in 0..map.l.nc {
            let args = [p.number as u64, p.sparse as u64, gain.bits(), boost.bits(), c as u64, g as u64];
            // Of a data cell the value that it would have as a pilot.
            let x = known(&map, c, g).unwrap_or_else(|| map.pilot_value(c, g));
            let mut out = [5.0, 6.0, 7.0];
            t.same("known", &args, cells::known(p.number, p.sparse, gain, boost, c, g, &mut out), 1);
            for (v, e) in out.into_iter().zip([x.re, x.im, 7.0]) {
                t.same("known", &args, v, e);
            }
        }
    }
}

fn refusals(t: &mut Tally, p: &Pattern) {
    let nc = p.map.l.nc;
    let cases = [(0, 0, 1), (0, 0, 0), (nc, 1, 2), (usize::MAX, 0, 2), (0, 65_536, 2), (0, usize::MAX, 2)];
    for (c, g, room) in cases {
        let mut out = [5.0, 6.0];
        let done = cells::known(p.number, p.sparse, 1.0, 1.0, c, g, &mut out[..room]);
        t.same("known, refused", &[p.number as u64, c as u64, g as u64], done, 0);
        t.same("known, as before", &[p.number as u64, c as u64, g as u64], out == [5.0, 6.0], true);
    }
}
