//! Bursts that a record can hold: every layout, constellation, pattern and spreading, and how many symbols fit.

use crate::oracle::burst::Burst;
use crate::rng::Rng;

use super::draft::{MOST, numbers};

/// Layouts, constellations, patterns, with spreading and without.
pub const SHAPES: usize = 9 * 4 * 2 * 2;

/// A plain burst of the shape.
pub fn burst(shape: usize, nsym: u16) -> Burst {
    let mut b = Burst::plain(shape / 16, (shape / 4 % 4) as u8, nsym);
    (b.sparse, b.spread) = (shape & 2 != 0, shape & 1 != 0);
    b.cell_variances = vec![1.0; b.cells()];
    b
}

/// The most symbols that fit, with a prior for every bit or with none.
pub fn most_symbols(shape: usize, every_prior: bool) -> u16 {
    let fits = |&nsym: &u16| {
        let b = burst(shape, nsym);
        numbers(&b) + if every_prior { b.bits() } else { 0 } <= MOST
    };
    (1..1024).take_while(fits).last().expect("one symbol fits every shape")
}

/// Any shape, one in eight as long as fits, the others more often short than long.
pub fn any(rng: &mut Rng, every_prior: bool) -> Burst {
    let shape = rng.between(0, SHAPES as u64) as usize;
    let most = most_symbols(shape, every_prior) as u64;
    let nsym = 1 + rng.between(0, most).min(rng.between(0, most));
    burst(shape, if rng.bits32().is_multiple_of(8) { most } else { nsym } as u16)
}
