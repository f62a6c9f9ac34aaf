//! Points, and what priors make of them.

unsafe extern "C" {
    #[link_name = "probe_mean_energy"]
    pub safe fn mean_energy(code: u32, gain: f32) -> f32;
    #[link_name = "probe_softplus"]
    pub safe fn softplus(x: f32) -> f32;
    #[link_name = "probe_loud"]
    pub safe fn loud(re: f32, im: f32, es: f32) -> bool;
    fn probe_points(code: u32, out: *mut f32, out_len: usize) -> usize;
    fn probe_scaled(code: u32, gain: f32, out: *mut f32, out_len: usize) -> u32;
    fn probe_soft_point(code: u32, gain: f32, llr: *const f32, llr_len: usize, out: *mut f32, out_len: usize) -> u32;
    fn probe_soft_point_of(
        pts: *const [f32; 128],
        bps: usize,
        llr: *const f32,
        llr_len: usize,
        out: *mut f32,
        out_len: usize,
    ) -> u32;
}

/// The bits of a point, or 0 when refused.
pub fn points(code: u32, out: &mut [f32]) -> usize {
    // SAFETY: the pointer is good for the length passed with it during the call.
    unsafe { probe_points(code, out.as_mut_ptr(), out.len()) }
}

/// 1 when done, 0 when refused.
pub fn scaled(code: u32, gain: f32, out: &mut [f32]) -> u32 {
    // SAFETY: the pointer is good for the length passed with it during the call.
    unsafe { probe_scaled(code, gain, out.as_mut_ptr(), out.len()) }
}

/// 1 when done, 0 when refused.
pub fn soft_point(code: u32, gain: f32, llr: &[f32], out: &mut [f32]) -> u32 {
    // SAFETY: both pointers are good for the lengths passed with them during the call.
    unsafe { probe_soft_point(code, gain, llr.as_ptr(), llr.len(), out.as_mut_ptr(), out.len()) }
}

/// 1 when done, 0 when refused.
pub fn soft_point_of(pts: &[f32; 128], bps: usize, llr: &[f32], out: &mut [f32]) -> u32 {
    // SAFETY: every pointer is good for its length during the call.
    unsafe { probe_soft_point_of(pts, bps, llr.as_ptr(), llr.len(), out.as_mut_ptr(), out.len()) }
}
