//! Building a burst, setting by setting.

use crate::{Constellation, Layout};

/// A burst to be judged: its shape, its settings, and what the receiver measured.
///
/// Unless set, boost, pilot gain, channel power and all variances are 1, k is 20, the grid is 0 and there are no priors.
/// Numbers are laid out as they are given: whether they can be judged is for the library to say.
#[derive(Clone, Debug)]
pub struct Burst {
    pub(crate) layout: Layout,
    pub(crate) constellation: Constellation,
    pub(crate) nsym: usize,
    pub(crate) sparse: bool,
    pub(crate) spread: bool,
    pub(crate) gain_code: usize,
    pub(crate) k: usize,
    pub(crate) boost: f32,
    pub(crate) pilot_gain: f32,
    pub(crate) channel_power: f32,
    pub(crate) carrier_variances: Option<Vec<f32>>,
    pub(crate) cell_variances: Option<Vec<f32>>,
    pub(crate) grid: Option<Vec<[f32; 2]>>,
    pub(crate) priors: Vec<f32>,
}

impl Burst {
    /// A burst of `nsym` data symbols.
    pub fn new(layout: Layout, constellation: Constellation, nsym: usize) -> Burst {
        Burst {
            layout,
            constellation,
            nsym,
            sparse: false,
            spread: false,
            gain_code: 0,
            k: 20,
            boost: 1.0,
            pilot_gain: 1.0,
            channel_power: 1.0,
            carrier_variances: None,
            cell_variances: None,
            grid: None,
            priors: Vec::new(),
        }
    }

    /// Whether the data symbols have the sparse pilot pattern.
    pub fn sparse(mut self, sparse: bool) -> Burst {
        self.sparse = sparse;
        self
    }

    /// Whether the data cells of each symbol are spread over its carriers.
    pub fn spread(mut self, spread: bool) -> Burst {
        self.spread = spread;
        self
    }

    /// The data cells' gain in steps of 0.75 dB, 0 to 3.
    pub fn gain_code(mut self, gain_code: usize) -> Burst {
        self.gain_code = gain_code;
        self
    }

    /// Pilots an estimate is made of, 0 to 63; the library holds it to 1 to 40.
    pub fn k(mut self, k: usize) -> Burst {
        self.k = k;
        self
    }

    /// Amplitude of the reference symbol, 0.125 to 8.
    pub fn boost(mut self, boost: f32) -> Burst {
        self.boost = boost;
        self
    }

    /// Amplitude of the data symbols' pilots, 0.125 to 8.
    pub fn pilot_gain(mut self, pilot_gain: f32) -> Burst {
        self.pilot_gain = pilot_gain;
        self
    }

    /// Mean power of the channel, p_h, above 0.
    pub fn channel_power(mut self, channel_power: f32) -> Burst {
        self.channel_power = channel_power;
        self
    }

    /// Noise of each carrier.
    pub fn carrier_variances(mut self, variances: Vec<f32>) -> Burst {
        self.carrier_variances = Some(variances);
        self
    }

    /// Noise of each data cell, in cell order.
    pub fn cell_variances(mut self, variances: Vec<f32>) -> Burst {
        self.cell_variances = Some(variances);
        self
    }

    /// What was received (re, im): symbol after symbol, the leading ones too, each with all its carriers.
    pub fn grid(mut self, grid: Vec<[f32; 2]>) -> Burst {
        self.grid = Some(grid);
        self
    }

    /// The decoder's log likelihood ratios in bit order, above 0 for a 0. Missing ones count as 0, those past the last
    /// bit for nothing.
    pub fn priors(mut self, priors: Vec<f32>) -> Burst {
        self.priors = priors;
        self
    }

    /// Symbols, leading ones and data.
    pub fn symbols(&self) -> usize {
        self.layout.leading_symbols() + self.nsym
    }

    /// Data cells: carrier by carrier in each data symbol, symbol after symbol.
    pub fn cells(&self) -> usize {
        self.nsym * self.layout.data_carriers(self.sparse)
    }

    /// Bits that the data cells carry.
    pub fn bits(&self) -> usize {
        self.cells() * self.constellation.bits_per_point()
    }
}
