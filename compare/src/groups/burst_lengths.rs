//! How many bits a burst can have, from the source's layouts.

use crate::oracle::phy::Constellation;
use crate::oracle::phy::frame::{LAYOUTS, MAX_DATA_SYMS, Pilots};

/// 1,023 symbols of 99 cells of 6 bits; `oracle_checks` holds it against the layouts.
pub const LONGEST: usize = 607_662;

/// Every nbits: all layouts, both patterns, all constellations, all lengths.
pub fn all() -> impl Iterator<Item = usize> {
    let patterns = LAYOUTS.into_iter().flat_map(|l| [Pilots::Robust, Pilots::Sparse].map(|p| l.data_carriers(p)));
    patterns.flat_map(|dc| {
        let symbols = Constellation::ALL.map(|c| dc * c.bits_per_symbol());
        symbols.into_iter().flat_map(|bits| (1..=MAX_DATA_SYMS).map(move |nsym| nsym * bits))
    })
}
