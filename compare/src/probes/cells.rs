//! Where the cells of a burst lie, and what is known of them.

/// Where a probe has no carrier or number to answer.
pub const NONE: usize = 0xFFFF;

unsafe extern "C" {
    #[link_name = "probe_is_pilot"]
    pub safe fn is_pilot(layout: u32, sparse: bool, c: usize, g: usize) -> bool;
    #[link_name = "probe_data_carrier"]
    pub safe fn data_carrier(layout: u32, sparse: bool, g: usize, j: usize) -> usize;
    #[link_name = "probe_cell_index"]
    pub safe fn cell_index(layout: u32, sparse: bool, g: usize, c: usize) -> usize;
    fn probe_known(
        layout: u32,
        sparse: bool,
        gain: f32,
        boost: f32,
        c: usize,
        g: usize,
        out: *mut f32,
        out_len: usize,
    ) -> u32;
}

/// 1 when done, 0 when refused.
pub fn known(layout: u32, sparse: bool, gain: f32, boost: f32, c: usize, g: usize, out: &mut [f32]) -> u32 {
    // SAFETY: the pointer is good for the length passed with it during the call.
    unsafe { probe_known(layout, sparse, gain, boost, c, g, out.as_mut_ptr(), out.len()) }
}
