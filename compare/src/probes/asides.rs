//! The entries beside the refinement.

use super::refinements::{Call, Settings};

/// 0 and the values when accepted, else the cause's number and zeros.
#[repr(C)]
pub struct Told {
    pub number: u32,
    pub values: [f32; 3],
}

unsafe extern "C" {
    fn probe_fde(
        y: *const f32,
        y_len: usize,
        h: *const f32,
        h_len: usize,
        v: *const f32,
        v_len: usize,
        gain: f32,
        z: *mut f32,
        z_len: usize,
    ) -> Told;
    safe fn probe_decide_entry(code: u32, y_re: f32, y_im: f32, h_re: f32, h_im: f32) -> Told;
    fn probe_channel_power(
        settings: Settings,
        grid: *const f32,
        grid_len: usize,
        sigma: *const f32,
        sigma_len: usize,
        cells: *const f32,
        cells_len: usize,
        prior: *const f32,
        prior_len: usize,
        wf: *mut f32,
        wf_len: usize,
        wu: *mut u32,
        wu_len: usize,
    ) -> Told;
    fn probe_single_estimate(
        settings: Settings,
        grid: *const f32,
        grid_len: usize,
        sigma: *const f32,
        sigma_len: usize,
        cells: *const f32,
        cells_len: usize,
        prior: *const f32,
        prior_len: usize,
        carrier: usize,
        symbol: usize,
        wf: *mut f32,
        wf_len: usize,
        wu: *mut u32,
        wu_len: usize,
    ) -> Told;
}

/// One spread symbol: cells, channel estimates, variances, gain, and the despread symbols.
#[derive(Clone)]
pub struct Symbol {
    pub y: Vec<f32>,
    pub h: Vec<f32>,
    pub v: Vec<f32>,
    pub gain: f32,
    pub z: Vec<f32>,
}

impl Symbol {
    /// Mean gain and variance.
    pub fn fde(&mut self) -> Told {
        let Symbol { y, h, v, gain, z } = self;
        // SAFETY: every pointer is good for its length during the call.
        unsafe {
            probe_fde(y.as_ptr(), y.len(), h.as_ptr(), h.len(), v.as_ptr(), v.len(), *gain, z.as_mut_ptr(), z.len())
        }
    }
}

/// re and im of y, then of h, to re and im.
pub fn decide(code: u32, [y_re, y_im, h_re, h_im]: [f32; 4]) -> Told {
    probe_decide_entry(code, y_re, y_im, h_re, h_im)
}

impl Call {
    pub fn channel_power(&mut self) -> Told {
        // SAFETY: every pointer is good for its length during the call.
        unsafe {
            probe_channel_power(
                self.settings,
                self.grid.as_ptr(),
                self.grid.len(),
                self.sigma.as_ptr(),
                self.sigma.len(),
                self.cells.as_ptr(),
                self.cells.len(),
                self.prior.as_ptr(),
                self.prior.len(),
                self.wf.as_mut_ptr(),
                self.wf.len(),
                self.wu.as_mut_ptr(),
                self.wu.len(),
            )
        }
    }

    /// Estimate (re, im) and error.
    pub fn single_estimate(&mut self, carrier: usize, symbol: usize) -> Told {
        // SAFETY: every pointer is good for its length during the call.
        unsafe {
            probe_single_estimate(
                self.settings,
                self.grid.as_ptr(),
                self.grid.len(),
                self.sigma.as_ptr(),
                self.sigma.len(),
                self.cells.as_ptr(),
                self.cells.len(),
                self.prior.as_ptr(),
                self.prior.len(),
                carrier,
                symbol,
                self.wf.as_mut_ptr(),
                self.wf.len(),
                self.wu.as_mut_ptr(),
                self.wu.len(),
            )
        }
    }
}
