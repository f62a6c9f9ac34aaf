//! Spreading, with twiddle factors of its own or the caller's.

unsafe extern "C" {
    fn probe_twiddles(m: usize, tw: *mut [f32; 218]) -> u32;
    fn probe_forward(tw: *const [f32; 218], m: usize, v: *mut f32, v_len: usize) -> u32;
    fn probe_spread(m: usize, inverse: bool, v: *mut f32, v_len: usize) -> u32;
}

/// 1 when done, 0 when refused.
pub fn twiddles(m: usize, tw: &mut [f32; 218]) -> u32 {
    // SAFETY: the pointer is good for 218 numbers during the call.
    unsafe { probe_twiddles(m, tw) }
}

/// 1 when done, 0 when refused.
pub fn forward(tw: &[f32; 218], m: usize, v: &mut [f32]) -> u32 {
    // SAFETY: both pointers are good for their lengths during the call.
    unsafe { probe_forward(tw, m, v.as_mut_ptr(), v.len()) }
}

/// 1 when done, 0 when refused.
pub fn spread(m: usize, inverse: bool, v: &mut [f32]) -> u32 {
    // SAFETY: the pointer is good for the length passed with it during the call.
    unsafe { probe_spread(m, inverse, v.as_mut_ptr(), v.len()) }
}
