//! The pilots of a burst.

/// What stands in front of the lists.
#[repr(C)]
#[derive(Clone, Copy)]
pub struct LoadSettings {
    pub layout: u32,
    pub sparse: bool,
    pub gain: f32,
    pub nsym: usize,
    pub boost: f32,
    pub p_h: f32,
    pub es: f32,
}

/// What is read of a burst: the expected values are three numbers a cell.
pub struct Lists<'a> {
    pub grid: &'a [f32],
    pub sigma: &'a [f32],
    pub cells: &'a [f32],
    pub expected: &'a [f32],
}

unsafe extern "C" {
    fn probe_load(
        settings: LoadSettings,
        grid: *const f32,
        grid_len: usize,
        sigma: *const f32,
        sigma_len: usize,
        cells: *const f32,
        cells_len: usize,
        expected: *const f32,
        expected_len: usize,
        w: *mut u32,
        w_len: usize,
        pf: *mut f32,
        pf_len: usize,
    ) -> usize;
}

/// How many pilots there are, 0 when refused.
pub fn load(s: &LoadSettings, l: &Lists, w: &mut [u32], pf: &mut [f32]) -> usize {
    // SAFETY: every pointer is good for the length passed with it during the call.
    unsafe {
        probe_load(
            *s,
            l.grid.as_ptr(),
            l.grid.len(),
            l.sigma.as_ptr(),
            l.sigma.len(),
            l.cells.as_ptr(),
            l.cells.len(),
            l.expected.as_ptr(),
            l.expected.len(),
            w.as_mut_ptr(),
            w.len(),
            pf.as_mut_ptr(),
            pf.len(),
        )
    }
}
