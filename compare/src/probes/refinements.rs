//! The whole refinement of a burst.

unsafe extern "C" {
    fn probe_refine(
        settings: Settings,
        grid: *const f32,
        grid_len: usize,
        sigma: *const f32,
        sigma_len: usize,
        cells: *const f32,
        cells_len: usize,
        prior: *const f32,
        prior_len: usize,
        answer: *mut f32,
        answer_len: usize,
        channel: *mut f32,
        channel_len: usize,
        wf: *mut f32,
        wf_len: usize,
        wu: *mut u32,
        wu_len: usize,
    ) -> Report;
}

/// What a burst's header and the station say of it.
#[repr(C)]
#[derive(Clone, Copy)]
pub struct Settings {
    pub layout: u32,
    pub constellation: u32,
    pub nsym: usize,
    pub sparse: bool,
    pub spread: bool,
    pub gain_code: u32,
    pub k: usize,
    pub boost: f32,
    pub pilot_gain: f32,
    pub p_h: f32,
}

/// 0 when accepted, else the cause's number and zeros.
#[repr(C)]
pub struct Report {
    pub number: u32,
    pub fd: u32,
    pub tm: u32,
    pub spoilt: u32,
    pub scale: f32,
}

/// What a call is handed, and what it writes.
#[derive(Clone)]
pub struct Call {
    pub settings: Settings,
    pub grid: Vec<f32>,
    pub sigma: Vec<f32>,
    pub cells: Vec<f32>,
    pub prior: Vec<f32>,
    pub answer: Vec<f32>,
    pub channel: Vec<f32>,
    pub wf: Vec<f32>,
    pub wu: Vec<u32>,
}

impl Call {
    pub fn refine(&mut self) -> Report {
        // SAFETY: every pointer is good for its length during the call.
        unsafe {
            probe_refine(
                self.settings,
                self.grid.as_ptr(),
                self.grid.len(),
                self.sigma.as_ptr(),
                self.sigma.len(),
                self.cells.as_ptr(),
                self.cells.len(),
                self.prior.as_ptr(),
                self.prior.len(),
                self.answer.as_mut_ptr(),
                self.answer.len(),
                self.channel.as_mut_ptr(),
                self.channel.len(),
                self.wf.as_mut_ptr(),
                self.wf.len(),
                self.wu.as_mut_ptr(),
                self.wu.len(),
            )
        }
    }
}
