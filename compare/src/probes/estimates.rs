//! Estimates of the channel, and the choice of its model, from a burst that is loaded first.

use super::pilots::{Lists, LoadSettings};

unsafe extern "C" {
    fn probe_estimates(
        settings: LoadSettings,
        asked: Asked,
        grid: *const f32,
        grid_len: usize,
        sigma: *const f32,
        sigma_len: usize,
        cells: *const f32,
        cells_len: usize,
        expected: *const f32,
        expected_len: usize,
        at: *const u32,
        at_len: usize,
        w: *mut u32,
        w_len: usize,
        pf: *mut f32,
        pf_len: usize,
        out: *mut f32,
        out_len: usize,
    ) -> usize;
    fn probe_models(
        settings: LoadSettings,
        k: usize,
        grid: *const f32,
        grid_len: usize,
        sigma: *const f32,
        sigma_len: usize,
        cells: *const f32,
        cells_len: usize,
        expected: *const f32,
        expected_len: usize,
        w: *mut u32,
        w_len: usize,
        pf: *mut f32,
        pf_len: usize,
    ) -> Selected;
}

/// The pilots an estimate may use, a model by its indices, and the factor on its errors.
#[repr(C)]
#[derive(Clone, Copy)]
pub struct Asked {
    pub k: usize,
    pub fd: u32,
    pub tm: u32,
    pub scale: f32,
}

/// How many pilots there are, the nine residuals and the chosen model; all 0 when refused.
#[repr(C)]
#[derive(PartialEq)]
pub struct Selected {
    pub np: usize,
    pub residuals: [f64; 9],
    pub fd: u32,
    pub tm: u32,
    pub scale: f32,
}

impl Selected {
    pub const NOTHING: Selected = Selected { np: 0, residuals: [0.0; 9], fd: 0, tm: 0, scale: 0.0 };
}

/// Room for the pilots of a burst.
pub struct Work {
    pub w: Vec<u32>,
    pub pf: Vec<f32>,
}

impl Work {
    pub fn new(nc: usize, ng: usize) -> Work {
        Work { w: vec![0; 2 * ng * nc + ng + 1], pf: vec![0.0; 3 * ng * nc] }
    }
}

/// Three numbers for each cell of `at`; how many pilots there are, 0 when refused.
pub fn estimates(s: &LoadSettings, l: &Lists, a: Asked, at: &[u32], work: &mut Work, out: &mut [f32]) -> usize {
    let Work { w, pf } = work;
    // SAFETY: every pointer is good for the length passed with it during the call.
    unsafe {
        probe_estimates(
            *s,
            a,
            l.grid.as_ptr(),
            l.grid.len(),
            l.sigma.as_ptr(),
            l.sigma.len(),
            l.cells.as_ptr(),
            l.cells.len(),
            l.expected.as_ptr(),
            l.expected.len(),
            at.as_ptr(),
            at.len(),
            w.as_mut_ptr(),
            w.len(),
            pf.as_mut_ptr(),
            pf.len(),
            out.as_mut_ptr(),
            out.len(),
        )
    }
}

pub fn models(s: &LoadSettings, l: &Lists, k: usize, work: &mut Work) -> Selected {
    let Work { w, pf } = work;
    // SAFETY: every pointer is good for its length during the call.
    unsafe {
        probe_models(
            *s,
            k,
            l.grid.as_ptr(),
            l.grid.len(),
            l.sigma.as_ptr(),
            l.sigma.len(),
            l.cells.as_ptr(),
            l.cells.len(),
            l.expected.as_ptr(),
            l.expected.len(),
            w.as_mut_ptr(),
            w.len(),
            pf.as_mut_ptr(),
            pf.len(),
        )
    }
}
