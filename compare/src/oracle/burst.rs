//! A burst as document 01's record has it, handed to the source's refinement.

use super::Refined;
use super::dsp::Complex;
use super::phy::Constellation;
use super::phy::frame::{DataMode, Header, LAYOUTS, Layout, Map, NC_MAX};
use super::phy::rx::refine::BurstGrid;

#[derive(Clone)]
pub struct Burst {
    /// 0 to 8.
    pub layout: usize,
    pub constellation: u8,
    pub nsym: u16,
    pub sparse: bool,
    pub spread: bool,
    pub gain_code: u8,
    pub k: usize,
    pub boost: f32,
    pub pilot_gain: f32,
    pub p_h: f32,
    /// nc numbers.
    pub carrier_variances: Vec<f32>,
    /// ncell numbers.
    pub cell_variances: Vec<f32>,
    /// 2 * ng * nc numbers: re and im, symbol by symbol.
    pub grid: Vec<f32>,
    pub prior: Vec<f32>,
}

impl Burst {
    /// Boost, pilot gain, p_h and variances 1, k 20, the rest 0: document 01's printed record
    /// when it is layout 7 and one symbol.
    pub fn plain(layout: usize, constellation: u8, nsym: u16) -> Burst {
        let mut b = Burst {
            layout,
            constellation,
            nsym,
            sparse: false,
            spread: false,
            gain_code: 0,
            k: 20,
            boost: 1.0,
            pilot_gain: 1.0,
            p_h: 1.0,
            carrier_variances: Vec::new(),
            cell_variances: Vec::new(),
            grid: Vec::new(),
            prior: Vec::new(),
        };
        b.carrier_variances = vec![1.0; b.shape().nc];
        b.cell_variances = vec![1.0; b.cells()];
        b.grid = vec![0.0; 2 * b.symbols() * b.shape().nc];
        b
    }

    pub fn shape(&self) -> &'static Layout {
        LAYOUTS[self.layout]
    }

    /// ng.
    pub fn symbols(&self) -> usize {
        self.shape().pre_syms() + self.nsym as usize
    }

    /// ncell.
    pub fn cells(&self) -> usize {
        self.nsym as usize * self.shape().data_carriers(self.header().pilots())
    }

    /// nbits.
    pub fn bits(&self) -> usize {
        self.cells() * Constellation::from_code(self.constellation).bits_per_symbol()
    }

    pub fn header(&self) -> Header {
        Header {
            constellation: self.constellation,
            nsym: self.nsym,
            user: 0,
            extra: 0,
            sparse: self.sparse,
            mode: DataMode { spread: self.spread, gain_code: self.gain_code },
        }
    }

    /// The pilot gain is the map's; the gain code is the data cells' alone.
    pub fn map(&self) -> Map {
        let l = self.shape();
        let mut map = Map::new(l, l.pre_syms(), self.header().pilots()).with_gain(self.pilot_gain);
        map.boost = self.boost;
        map
    }

    /// What the receiver keeps of the burst until it is refined.
    pub fn kept(&self) -> BurstGrid {
        let grid: Vec<Complex> = self.grid.chunks_exact(2).map(|y| Complex::new(y[0], y[1])).collect();
        assert_eq!(grid.len(), self.symbols() * self.shape().nc);
        let mut sigma2 = [0f32; NC_MAX];
        sigma2[..self.shape().nc].copy_from_slice(&self.carrier_variances);
        let cells = self.cell_variances.clone();
        BurstGrid::new(self.shape(), self.header(), self.map(), &grid, sigma2, cells, self.p_h)
    }

    pub fn refine(&self) -> Refined {
        self.kept().refine(&self.prior, self.k)
    }
}
