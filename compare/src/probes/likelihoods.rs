//! A cell's likelihoods and its nearest point, by a table that the caller made.

unsafe extern "C" {
    fn probe_demap(pts: *const [f32; 128], bps: usize, r: FlatCell, out: *mut f32, out_len: usize) -> u32;
    fn probe_decide(pts: *const [f32; 128], bps: usize, r: FlatCell, out: *mut f32, out_len: usize) -> u32;
}

#[repr(C)]
struct FlatCell {
    y_re: f32,
    y_im: f32,
    h_re: f32,
    h_im: f32,
    mse: f32,
    sigma2: f32,
}

/// A cell y = h x + n: re and im of y and h, then the variances of h and n.
#[derive(Clone, Copy)]
pub struct Cell {
    pub y: [f32; 2],
    pub h: [f32; 2],
    pub mse: f32,
    pub sigma2: f32,
}

impl Cell {
    fn flat(&self) -> FlatCell {
        let ([y_re, y_im], [h_re, h_im]) = (self.y, self.h);
        FlatCell { y_re, y_im, h_re, h_im, mse: self.mse, sigma2: self.sigma2 }
    }
}

/// 1 when done, 0 when refused.
pub fn demap(pts: &[f32; 128], bps: usize, c: &Cell, out: &mut [f32]) -> u32 {
    // SAFETY: every pointer is good for its length during the call.
    unsafe { probe_demap(pts, bps, c.flat(), out.as_mut_ptr(), out.len()) }
}

/// 1 when done, 0 when refused.
pub fn decide(pts: &[f32; 128], bps: usize, c: &Cell, out: &mut [f32]) -> u32 {
    // SAFETY: every pointer is good for its length during the call.
    unsafe { probe_decide(pts, bps, c.flat(), out.as_mut_ptr(), out.len()) }
}
