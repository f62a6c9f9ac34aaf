//! The verified functions, as their static library hands them out. Outside its domain a probe
//! answers NaN.

pub mod asides;
pub mod cells;
pub mod constellations;
pub mod estimates;
#[cfg(ion_hf)]
pub mod headers;
pub mod likelihoods;
pub mod pilots;
pub mod records;
pub mod refinements;
pub mod spreading;

unsafe extern "C" {
    #[link_name = "probe_narrow"]
    pub safe fn narrow(x: f64) -> f32;
    #[link_name = "probe_sqrt32"]
    pub safe fn sqrt32(x: f32) -> f32;
    #[link_name = "probe_sqrt64"]
    pub safe fn sqrt64(x: f64) -> f64;
    #[link_name = "probe_max32"]
    pub safe fn max32(a: f32, b: f32) -> f32;
    #[link_name = "probe_max64"]
    pub safe fn max64(a: f64, b: f64) -> f64;
    #[link_name = "probe_clamp32"]
    pub safe fn clamp32(x: f32, lo: f32, hi: f32) -> f32;
    #[link_name = "probe_clamp64"]
    pub safe fn clamp64(x: f64, lo: f64, hi: f64) -> f64;
    #[link_name = "probe_abs64"]
    pub safe fn abs64(x: f64) -> f64;
    #[link_name = "probe_is_finite32"]
    pub safe fn is_finite32(x: f32) -> bool;
    #[link_name = "probe_exp"]
    pub safe fn exp(x: f32) -> f32;
    #[link_name = "probe_ln"]
    pub safe fn ln(v: f32) -> f32;
    #[link_name = "probe_ln_1p"]
    pub safe fn ln_1p(t: f32) -> f32;
    #[link_name = "probe_sin"]
    pub safe fn sin(p: f64) -> f64;
    #[link_name = "probe_cos"]
    pub safe fn cos(p: f64) -> f64;
    #[link_name = "probe_gain"]
    pub safe fn gain(code: u32) -> f32;
    #[link_name = "probe_mix32"]
    pub safe fn mix32(x: u32) -> u32;
    #[link_name = "probe_scramble"]
    pub safe fn scramble(seed: u32, i: u32) -> u32;
    #[link_name = "probe_interleave_step"]
    pub safe fn interleave_step(n: usize) -> usize;
    #[link_name = "probe_slot"]
    pub safe fn slot(n: usize, i: usize) -> usize;
    fn probe_to_slots(prior: *const f32, prior_len: usize, n: usize, out: *mut f32, out_len: usize) -> u32;
    fn probe_from_slots(slots: *const f32, slots_len: usize, n: usize, out: *mut f32, out_len: usize) -> u32;
}

/// 1 when done, 0 when refused.
pub fn to_slots(prior: &[f32], n: usize, out: &mut [f32]) -> u32 {
    // SAFETY: both pointers are good for the lengths passed with them during the call.
    unsafe { probe_to_slots(prior.as_ptr(), prior.len(), n, out.as_mut_ptr(), out.len()) }
}

/// 1 when done, 0 when refused.
pub fn from_slots(slots: &[f32], n: usize, out: &mut [f32]) -> u32 {
    // SAFETY: both pointers are good for the lengths passed with them during the call.
    unsafe { probe_from_slots(slots.as_ptr(), slots.len(), n, out.as_mut_ptr(), out.len()) }
}
