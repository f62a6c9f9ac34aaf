//! Every cell of every layout and pattern: whether it is known, and the data cells by number
//! and by carrier.

use crate::oracle::phy::frame::{LAYOUTS, MAX_DATA_SYMS, Map, NC_MAX, Pilots, data_carrier_table};
use crate::probes::cells::{self, NONE};
use crate::report::Tally;

/// Past every carrier, symbol and number of a cell.
const PAST: [usize; 3] = [200, 65_537, usize::MAX];

/// A layout with one of its patterns.
pub struct Pattern {
    pub number: u32,
    pub sparse: bool,
    pub map: Map,
}

/// Each layout with each pattern.
pub fn patterns() -> impl Iterator<Item = Pattern> {
    let one = |number: usize, sparse| {
        let l = LAYOUTS[number];
        let pilots = if sparse { Pilots::Sparse } else { Pilots::Robust };
        Pattern { number: number as u32, sparse, map: Map::new(l, l.pre_syms(), pilots) }
    };
    (0..LAYOUTS.len()).flat_map(move |number| [false, true].map(|sparse| one(number, sparse)))
}

impl Pattern {
    /// One past the longest burst's last symbol.
    pub fn end(&self) -> usize {
        self.map.hdr_end + MAX_DATA_SYMS
    }

    fn args(&self, g: usize, c: usize) -> [u64; 4] {
        [self.number as u64, self.sparse as u64, g as u64, c as u64]
    }
}

pub fn compare_pilots() -> Tally {
    let mut t = Tally::new("is_pilot");
    for p in patterns() {
        let mut same = |number, c, g| {
            let ours = cells::is_pilot(number, p.sparse, c, g);
            t.same("is_pilot", &p.args(g, c), ours, p.map.is_pilot(c, g));
        };
        for g in (0..=p.end()).chain(PAST) {
            (0..=p.map.l.nc).chain(PAST).for_each(|c| same(p.number, c, g));
        }
        // Numbers past 8 name the last layout.
        if p.number == 8 {
            (0..p.map.l.nc).for_each(|c| same(9, c, 19));
            (0..p.map.l.nc).for_each(|c| same(u32::MAX, c, 20));
        }
    }
    t
}

pub fn compare_carriers() -> Tally {
    let mut t = Tally::new("data_carrier, cell_index");
    for p in patterns() {
        let table = data_carrier_table(p.map.l, p.map.l.pattern(p.map.pilots));
        symbol(&mut t, &p, 0, &[]);
        for g in 1..=p.end() {
            let mut all = [0; NC_MAX];
            p.map.data_carriers_of(g, &mut all);
            let carriers = &all[..p.map.data_carriers(g)];
            symbol(&mut t, &p, g, carriers);
            if g >= p.map.hdr_end {
                t.same("as in the table", &p.args(g, 0), *carriers == table[g % table.len()], true);
            }
        }
    }
    t
}

/// By number, by carrier, and past both ends.
fn symbol(t: &mut Tally, p: &Pattern, g: usize, carriers: &[u8]) {
    for j in (0..=carriers.len()).chain(PAST) {
        let expected = carriers.get(j).map_or(NONE, |&c| c as usize);
        t.same("data_carrier", &p.args(g, j), cells::data_carrier(p.number, p.sparse, g, j), expected);
    }
    for c in (0..=p.map.l.nc).chain(PAST) {
        let expected = carriers.iter().position(|&d| d as usize == c).unwrap_or(NONE);
        t.same("cell_index", &p.args(g, c), cells::cell_index(p.number, p.sparse, g, c), expected);
    }
}
