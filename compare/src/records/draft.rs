//! A burst record laid out as document 01 says.

use crate::oracle::burst::Burst;

/// The longest record that may be accepted.
pub const LONGEST: usize = 8192;
/// How many numbers follow the fields at most.
pub const MOST: usize = (LONGEST - 6) / 4;

/// Fields, and numbers as f32 bits.
#[derive(Clone)]
pub struct Draft {
    pub layout: u64,
    pub constellation: u64,
    pub nsym: u64,
    pub sparse: bool,
    pub spread: bool,
    pub gain_code: u64,
    pub k: u64,
    pub priors: u64,
    pub padding: u64,
    pub boost: u32,
    pub pilot_gain: u32,
    pub p_h: u32,
    pub carriers: Vec<u32>,
    pub cells: Vec<u32>,
    pub grid: Vec<u32>,
    pub prior: Vec<u32>,
    pub length: Length,
}

/// How long the record ends up: what is cut goes from the end, what is added is 0.
#[derive(Clone, Copy)]
pub enum Length {
    Own,
    Less(usize),
    More(usize),
    Set(usize),
}

fn bits(list: &[f32]) -> Vec<u32> {
    list.iter().map(|x| x.to_bits()).collect()
}

impl Draft {
    pub fn of(b: &Burst) -> Draft {
        Draft {
            layout: b.layout as u64,
            constellation: b.constellation as u64,
            nsym: b.nsym as u64,
            sparse: b.sparse,
            spread: b.spread,
            gain_code: b.gain_code as u64,
            k: b.k as u64,
            priors: b.prior.len() as u64,
            padding: 0,
            boost: b.boost.to_bits(),
            pilot_gain: b.pilot_gain.to_bits(),
            p_h: b.p_h.to_bits(),
            carriers: bits(&b.carrier_variances),
            cells: bits(&b.cell_variances),
            grid: bits(&b.grid),
            prior: bits(&b.prior),
            length: Length::Own,
        }
    }

    pub fn bytes(&self) -> Vec<u8> {
        let fields = [
            (self.layout, 4),
            (self.constellation, 2),
            (self.nsym, 10),
            (self.sparse as u64, 1),
            (self.spread as u64, 1),
            (self.gain_code, 2),
            (self.k, 6),
            (self.priors, 20),
            (self.padding, 2),
        ];
        let mut head = 0;
        for (value, width) in fields {
            assert!(value < 1 << width, "{value} does not fit {width} bits");
            head = head << width | value;
        }
        let mut bytes = head.to_be_bytes()[2..].to_vec();
        let mut put = |list: &[u32]| list.iter().for_each(|x| bytes.extend(x.to_be_bytes()));
        put(&[self.boost, self.pilot_gain, self.p_h]);
        [&self.carriers, &self.cells, &self.grid, &self.prior].into_iter().for_each(|list| put(list));
        let own = bytes.len();
        bytes.resize(self.length.of(own), 0);
        bytes
    }
}

impl Length {
    fn of(self, own: usize) -> usize {
        match self {
            Length::Own => own,
            Length::Less(n) => own.saturating_sub(n),
            Length::More(n) => own + n,
            Length::Set(n) => n,
        }
    }
}

/// How many numbers the burst's record has.
pub fn numbers(b: &Burst) -> usize {
    3 + b.shape().nc + b.cells() + 2 * b.symbols() * b.shape().nc + b.prior.len()
}
